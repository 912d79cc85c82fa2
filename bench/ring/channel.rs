// Times std's channel with the same messages, room and bursts as the ring: channel waits|tries 1|2.
// `waits` uses send and recv, and `tries` asks again and again, as the ring's ends do. With 1 one thread sends and
// takes, with 2 one sends and another takes. It writes how many messages arrived in order, and the microseconds that it
// took by the clock.

use std::sync::mpsc::{TrySendError, sync_channel};
use std::time::Instant;

const COUNT: u64 = 40_000_000;
const BURST: u64 = 32;
const ROOM: usize = 64;
const SPINS: u64 = 200;

struct Message {
    point: u64,
    value: i64,
    stamp: u64,
}

fn message(n: u64) -> Message {
    Message { point: 1, value: -(n as i64), stamp: n }
}

fn is_next(message: &Message, n: u64) -> bool {
    message.point == 1 && message.value == -(n as i64) && message.stamp == n
}

fn pause(tries: u64) {
    if tries % SPINS == SPINS - 1 {
        std::thread::yield_now();
    } else {
        std::hint::spin_loop();
    }
}

// Tries until it is done.
fn until<T>(mut attempt: impl FnMut() -> Option<T>) -> T {
    for tries in 0.. {
        if let Some(done) = attempt() {
            return done;
        }
        pause(tries);
    }
    unreachable!()
}

fn time(alone: bool, mut send: impl FnMut(Message) + Send, mut take: impl FnMut() -> Message + Send) -> (u64, u128) {
    let start = Instant::now();
    let mut arrived = 0;
    if alone {
        for burst in 0..COUNT / BURST {
            (0..BURST).for_each(|i| send(message(burst * BURST + i)));
            (0..BURST).for_each(|i| arrived += u64::from(is_next(&take(), burst * BURST + i)));
        }
    } else {
        std::thread::scope(|scope| {
            scope.spawn(|| (0..COUNT).for_each(|n| send(message(n))));
            (0..COUNT).for_each(|n| arrived += u64::from(is_next(&take(), n)));
        });
    }
    (arrived, start.elapsed().as_micros())
}

fn main() {
    let words: Vec<String> = std::env::args().skip(1).collect();
    let alone = words[1] == "1";
    let (sender, receiver) = sync_channel(ROOM);
    let (arrived, took) = if words[0] == "waits" {
        time(alone, move |m| sender.send(m).unwrap(), move || receiver.recv().unwrap())
    } else {
        let send = move |m: Message| {
            let mut left = Some(m);
            until(|| match sender.try_send(left.take()?) {
                Ok(()) => Some(()),
                Err(TrySendError::Full(m)) => {
                    left = Some(m);
                    None
                }
                Err(TrySendError::Disconnected(_)) => panic!("no receiver is left"),
            });
        };
        time(alone, send, move || until(|| receiver.try_recv().ok()))
    };
    println!("{arrived} {took}");
}
