//! Plans that break a rule: every ground for refusal 11.

use super::maker::Maker;
use super::values;
use crate::limits::TEXT;
use crate::paths::Path;
use crate::rng::Rng;
use crate::schema::{Attribute, Cluster, Schema};
use crate::value::{Kind, Value};

type Break = fn(&mut Rng, &mut Schema);

/// Each ground by its name, with what brings it about in a sound schema.
pub const GROUNDS: [(&str, Break); 19] = [
    ("9 endpoints", nine_endpoints),
    ("33 clusters", thirty_three_clusters),
    ("257 attributes", too_many_attributes),
    ("clusters not rising", |_, schema| schema.clusters.reverse()),
    ("a cluster twice", |_, schema| schema.clusters.push(schema.clusters[0].clone())),
    ("attributes not rising", |_, schema| schema.attributes.reverse()),
    ("an attribute twice", |rng, schema| {
        let one = rng.below(schema.attributes.len());
        schema.attributes.insert(one, schema.attributes[one].clone());
    }),
    ("an attribute with no cluster", |rng, schema| {
        let place = *rng.pick(&[(u16::MAX, 0), (0, 8)]);
        schema.clusters.retain(|one| one.place != place);
        add(schema, Kind::Bool, Value::Bool(true));
        if let Some(last) = schema.attributes.last_mut() {
            (last.path.endpoint, last.path.cluster) = place;
        }
        schema.attributes.sort_by_key(|one| one.path);
    }),
    ("read privilege 0", |_, schema| schema.attributes[0].read = Some(0)),
    ("read privilege 5", |_, schema| schema.attributes[0].read = Some(5)),
    ("write privilege 0", |_, schema| schema.attributes[0].write = Some(0)),
    ("write privilege 5", |_, schema| schema.attributes[0].write = Some(5)),
    ("unsigned out of order", |rng, schema| {
        let (lowest, highest, first) = *rng.pick(&[(2, 1, 1), (2, 9, 1), (2, 9, 10)]);
        add(schema, Kind::Unsigned { lowest, highest }, Value::Unsigned(first));
    }),
    ("signed out of order", |rng, schema| {
        let (lowest, highest, first) = *rng.pick(&[(1, -1, 0), (-9, -2, -1), (-9, -2, -10)]);
        add(schema, Kind::Signed { lowest, highest }, Value::Signed(first));
    }),
    ("float out of order", |rng, schema| {
        let (lowest, highest, first) = *rng.pick(&[
            (0x42C8_0000, 0x0000_0000, 0x3F00_0000),
            (0x0000_0000, 0x42C8_0000, 0x42C8_0001),
            (0x0000_0001, 0x42C8_0000, 0x8000_0000),
        ]);
        add(schema, Kind::Float { lowest, highest }, Value::Float(first));
    }),
    ("float not finite", |rng, schema| {
        let (lowest, highest, first) = *rng.pick(&[
            (0xFF80_0000, 0x42C8_0000, 0x0000_0000),
            (0x0000_0000, 0x7F80_0000, 0x3F00_0000),
            (0x7F80_0000, 0x7F80_0000, 0x7F80_0000),
            (0x7FC0_0000, 0x7FC0_0000, 0x7FC0_0000),
            (0x0000_0000, 0x42C8_0000, 0x7F80_0001),
        ]);
        add(schema, Kind::Float { lowest, highest }, Value::Float(first));
    }),
    ("text of 201", |rng, schema| {
        let text = values::text_of(rng, TEXT + 1);
        add(schema, Kind::Text, Value::Text(text));
    }),
    ("text not UTF-8", |_, schema| add(schema, Kind::Text, Value::Text(vec![0xED, 0xA0, 0x80]))),
    ("text cut inside a character", |_, schema| add(schema, Kind::Text, Value::Text(vec![0xC3]))),
];

/// Adds one attribute behind all others, on the last cluster.
fn add(schema: &mut Schema, kind: Kind, first: Value) {
    let place = schema.clusters.last().map_or((0, 0), |one| one.place);
    let path = Path { endpoint: place.0, cluster: place.1, attribute: u32::MAX };
    schema.attributes.retain(|one| one.path != path);
    let attribute = Attribute { path, read: Some(1), write: None, nullable: true, kind, first };
    schema.attributes.push(attribute);
}

fn nine_endpoints(_: &mut Rng, schema: &mut Schema) {
    let last = schema.clusters.last().map_or(0, |one| one.place.0);
    for number in 1..=8 {
        schema.clusters.push(Cluster { place: (last.saturating_add(number), 6), version: 0 });
    }
}

fn thirty_three_clusters(_: &mut Rng, schema: &mut Schema) {
    let (endpoint, cluster) = schema.clusters.last().map_or((0, 0), |one| one.place);
    let missing = 33 - schema.clusters.len() as u32;
    for number in 1..=missing {
        schema.clusters.push(Cluster { place: (endpoint, cluster + number), version: number });
    }
}

fn too_many_attributes(_: &mut Rng, schema: &mut Schema) {
    let place = schema.clusters.last().map_or((0, 0), |one| one.place);
    schema.attributes.clear();
    for attribute in 0..257 {
        let path = Path { endpoint: place.0, cluster: place.1, attribute };
        let (kind, first) = (Kind::Bool, Value::Bool(true));
        schema.attributes.push(Attribute {
            path,
            read: Some(1),
            write: Some(1),
            nullable: false,
            kind,
            first,
        });
    }
}

/// A small sound schema with enough in it for every ground to bite.
fn base() -> Schema {
    let mut schema = Schema { subject: 7, ..Schema::default() };
    for cluster in [6, 8] {
        let place = (0, cluster);
        schema.clusters.push(Cluster { place, version: 3 });
        for attribute in [0, 1] {
            let path = Path { endpoint: 0, cluster, attribute };
            schema.attributes.push(Attribute {
                path,
                read: Some(1),
                write: Some(1),
                nullable: false,
                kind: Kind::Bool,
                first: Value::Bool(false),
            });
        }
    }
    schema
}

/// A plan with one of the grounds, by its name.
pub fn schema(maker: &mut Maker) -> (&'static str, Schema) {
    let (name, broken) = *maker.rng.pick(&GROUNDS);
    let mut schema = base();
    broken(&mut maker.rng, &mut schema);
    (name, schema)
}
