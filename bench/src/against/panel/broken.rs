//! Refusal 2: panels with one thing broken, or almost, get it from the library and from the checked Rust alike; and the library gives it for a newest request
//! with a number past its limit, and for no other.

use reference::rng::Rng;

use crate::called::{CalledPanel, Last};
use crate::messages::{status, Messages};
use crate::ordinary_panel::Checked;
use crate::panel::{
    Held, Panel, CLUSTER_COUNT, COUNT, NO_VERSION, ORDER, PRIMED, SPARE, STAGE, USED,
};
use crate::setup::{ATTRIBUTES, CLUSTERS, MESSAGE, TEXTS, TEXT_SIZE};

/// How many panels kept the rules and how many did not; of those that did, how many were then given a newest request that did, and one that did not.
#[derive(Default)]
pub struct Judged {
    pub kept: u64,
    pub broken: u64,
    pub requests: u64,
    pub broken_requests: u64,
}

/// A panel that holds this is touched and judged.
pub fn hold(name: &str, panel: &Panel, rng: &mut Rng, judged: &mut Judged) {
    let mut ours = Panel::holding(panel);
    for _ in 0..rng.between(1, 2) {
        touch(&mut ours, rng);
    }
    let mut checked = Checked::holding(&ours);
    let right = ours.valid();
    assert_eq!(right, checked.valid(), "{name}: whether the panel keeps the rules");
    *(if right { &mut judged.kept } else { &mut judged.broken }) += 1;
    let (page, same) = (ours.page.clone(), checked.page().to_vec());
    let (mut a, mut b) = ([7; MESSAGE], [7; MESSAGE]);
    // A message of no kind: 4 where there is no 2.
    let mut messages = Messages::default();
    for nothing in [false, true] {
        if nothing {
            messages.push(&[]);
        }
        let Last { number, len } = ours.run(&messages, &mut a);
        let other = checked.run(&messages, &mut b);
        assert_eq!(number, other.number, "{name}: the answer");
        // The Rust panel has no entry without a version, which leaves its cluster no filter.
        if right && !ours.held.versions[..ours.held.count()].contains(&NO_VERSION) {
            assert_eq!(len, other.len, "{name}: how long the message is");
            assert_eq!(a, b, "{name}: the message");
        }
        assert_eq!(right, number != 2, "{name}: 2 exactly if the rules are broken");
        assert!(ours.page == page && checked.page() == same, "{name}: the page is as it was");
    }
    if right {
        let kept = touch_request(&mut ours.held, rng);
        hold_request(name, &mut ours, kept);
        *(if kept { &mut judged.requests } else { &mut judged.broken_requests }) += 1;
    }
}

/// The orders as they must be, as far as the counts go.
fn reorder(held: &mut Held) {
    let Held { clusters, keys, order, .. } = held;
    let (entry_order, cluster_order) = order.split_at_mut(ATTRIBUTES);
    let count = (held.asked[COUNT] as usize).min(ATTRIBUTES);
    let cluster_count = (held.asked[CLUSTER_COUNT] as usize).min(CLUSTERS);
    for (words, order) in [
        (&keys[..count], &mut entry_order[..count]),
        (&clusters[..cluster_count], &mut cluster_order[..cluster_count]),
    ] {
        order.iter_mut().enumerate().for_each(|(j, place)| *place = j as u8);
        order.sort_by_key(|i| words[usize::from(*i)]);
    }
}

/// A count, an entry's path, version, kind or word, a cluster, the place, the length or a byte of a text, an order, the page's length, or a word that says no
/// number. Orders follow as a rule.
fn touch(Panel { page, held }: &mut Panel, rng: &mut Rng) {
    let (count, clusters) = (held.count(), held.cluster_count());
    let i = rng.below(count.clamp(1, ATTRIBUTES));
    let j = rng.below(count.clamp(1, ATTRIBUTES));
    let k = rng.below(clusters.clamp(1, CLUSTERS));
    let small = [0, 1, 2, 199, 200, 201, 255, 256, 1 << 32, u64::MAX];
    match rng.below(18) {
        0 => {
            let counts = [0, count.saturating_sub(1), ATTRIBUTES + 1, usize::MAX];
            held.asked[COUNT] = *rng.pick(&counts) as u64;
        }
        1 | 2 if count < ATTRIBUTES => {
            // One entry more, of a path that no other has.
            held.keys[count] = u64::from(u32::MAX) - count as u64;
            held.kinds[count] = rng.below(7) as u8;
            held.words[count] = *rng.pick(&small);
            held.asked[COUNT] += 1;
        }
        3 => {
            let counts = [0, clusters.saturating_sub(1), CLUSTERS, CLUSTERS + 1, usize::MAX];
            held.asked[CLUSTER_COUNT] = *rng.pick(&counts) as u64;
        }
        4 => held.clusters[k] |= 1 << *rng.pick(&[48, 63]),
        5 => held.clusters[k] = held.clusters[rng.below(CLUSTERS)],
        6 => held.keys[i] = held.keys[j],
        7 => held.keys[i] = held.keys[i] % NO_VERSION | rng.below(CLUSTERS) as u64 * NO_VERSION,
        8 => {
            held.versions[i] = *rng.pick(&[0, NO_VERSION - 1, NO_VERSION, NO_VERSION + 1, u64::MAX])
        }
        9 => held.kinds[i] = *rng.pick(&[0, 1, 2, 3, 4, 5, 6, 255]),
        10 => held.words[i] = *rng.pick(&small),
        11 => {
            // Two texts, in one place as a rule.
            (held.kinds[i], held.kinds[j]) = (5, 5);
            held.words[i] = held.words[j];
        }
        12 => held.lengths[rng.below(TEXTS)] = *rng.pick(&[0, 1, 199, 200, 201, 256, u16::MAX]),
        13 => {
            let (a, b) = (rng.below(ORDER), *rng.pick(&[0, 1, 255]));
            held.order[rng.below(count.clamp(1, ATTRIBUTES))] = b;
            return held.order.swap(a, i);
        }
        14 => page.resize(*rng.pick(&[0, page.len().saturating_sub(1), page.len() + 1]), 0),
        15 => held.asked[PRIMED] = *rng.pick(&[0, 1, 2, 1 << 32]),
        16 if rng.chance(30) => held.asked[SPARE + rng.below(3)] = *rng.pick(&[0, 1, 1 << 63]),
        _ => {
            // Of a text one of its bytes, or the one after them.
            let place = held.text_place(i).filter(|place| *place < TEXTS).unwrap_or(0);
            let len = usize::from(held.lengths[place]).min(TEXT_SIZE - 1);
            let at = TEXT_SIZE * place + rng.between(0, len);
            let byte = *rng.pick(&[b'x', 0x80, 0xC3, 0xA9, 0xE2, 0xF0, 0xFF]);
            page.iter_mut().skip(at).take(1).for_each(|one| *one = byte);
        }
    }
    if rng.chance(90) {
        reorder(held);
    }
}

/// The most that the words of the newest request may say: the highest number used, exchange, stage, turn, status, endpoint, cluster, attribute, unknown write, length.
const HIGHEST: [u64; 10] = [
    (1 << 40) - 1,
    (1 << 40) - 1,
    4,
    65_535,
    255,
    65_535,
    u32::MAX as u64,
    u32::MAX as u64,
    (1 << 40) - 1,
    MESSAGE as u64,
];

/// Each word in its limits, or seldom past them. Whether all keep the rules: no exchange is past the highest number used; what is open has an exchange, a turn, of a
/// write the first, and a message.
fn touch_request(held: &mut Held, rng: &mut Rng) -> bool {
    let words = &mut held.asked[USED..SPARE];
    for (word, highest) in words.iter_mut().zip(HIGHEST) {
        *word = if rng.chance(3) {
            *rng.pick(&[highest + 1, highest + (1 << 40), u64::MAX])
        } else {
            (*rng.pick(&[0, 1, 1, 2, 17, highest])).min(highest)
        };
    }
    if rng.chance(60) {
        words[0] = HIGHEST[0];
    }
    let [used, exchange, stage, turn, _, _, _, _, unknown, len] = *words else {
        unreachable!("ten words")
    };
    let within = words.iter().zip(HIGHEST).all(|(word, highest)| *word <= highest);
    let sent = exchange > 0 && turn > 0 && (stage == 1 || turn == 1) && len > 0;
    within && exchange <= used && unknown <= used && (!matches!(stage, 1 | 2) || sent)
}

/// 2 for every call exactly if the newest request breaks the rules.
fn hold_request(name: &str, ours: &mut Panel, kept: bool) {
    assert_eq!(kept, ours.valid(), "{name}: whether the newest request keeps the rules");
    let (before, mut out) = (ours.clone(), [0; MESSAGE]);
    let open = matches!(before.held.asked[STAGE], 1 | 2);
    let last = ours.resend(&mut out);
    let number = if !kept {
        2
    } else if open {
        0
    } else {
        9
    };
    assert_eq!(last.number, number, "{name}: the newest message again");
    assert_eq!(out[..last.len], before.held.kept[..last.len], "{name}: the newest message");
    let number = ours.receive(&status(0, 0), &mut out).number;
    assert_eq!(kept, number != 2, "{name}: 2 exactly if the newest request breaks the rules");
    assert_eq!(*ours == before, number > 1, "{name}: what is refused leaves all as it was");
    let number = Panel::begin_read(&mut before.clone(), &mut out).number;
    let full = before.held.asked[USED] == HIGHEST[0];
    assert_eq!(
        number,
        if !kept {
            2
        } else if full {
            8
        } else {
            0
        },
        "{name}: a read begun"
    );
}
