//! The ring of the benchmark over tokio's unbounded channels on one thread: K tasks pass a token on, each to the next, until
//! it has gone round ten times. `ring_tokio K` prints the nanoseconds a message.
use std::time::Instant;
use tokio::sync::mpsc::{unbounded_channel, UnboundedReceiver, UnboundedSender};

async fn member(mut token: UnboundedReceiver<u64>, next: UnboundedSender<u64>, done: UnboundedSender<u64>) {
    while let Some(left) = token.recv().await {
        let to = if left > 0 { &next } else { &done };
        if to.send(left.saturating_sub(1)).is_err() {
            return;
        }
    }
}

async fn ring(agents: usize) -> f64 {
    let (done, mut ended) = unbounded_channel();
    let (sends, receives): (Vec<_>, Vec<_>) = (0..agents).map(|_| unbounded_channel()).unzip();
    for (k, token) in receives.into_iter().enumerate() {
        tokio::task::spawn_local(member(token, sends[(k + 1) % agents].clone(), done.clone()));
    }
    let passes = 10 * agents as u64;
    let began = Instant::now();
    sends[1 % agents].send(passes).expect("the ring stands");
    ended.recv().await;
    began.elapsed().as_nanos() as f64 / passes as f64
}

fn main() {
    let agents = std::env::args().nth(1).and_then(|word| word.parse().ok()).expect("how many agents");
    let runtime = tokio::runtime::Builder::new_current_thread().build().expect("a runtime");
    let local = tokio::task::LocalSet::new();
    println!("{:.1}", local.block_on(&runtime, ring(agents)));
}
