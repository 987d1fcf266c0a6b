#!/usr/bin/env bash
# How long a delivery takes to an entity that takes commands, with the items that come of it taken out
# again: on one counter, of repeats, on 1,000 counters in turn, and on a cart with 16 items; a million
# each, five times, of which the least processor time is told.
#
# A C program calls a static library over `shard_entities`. Its functions ask of their callers what
# never holds, so nothing of what a delivery rests on is proved there, and it isn't part of the
# repository: it is written into a copy, which needs the kit and a C compiler.
set -eu
top=$(cd "$(dirname "$0")/.." && pwd)
work=$(mktemp -d)
trap 'rm -rf "$work"' EXIT
tar -C "$top" --exclude=out -cf - crates crates.txt HANDLES | tar -C "$work" -xf -
mkdir -p "$work/crates/bench_deliver/src"
echo "bench_deliver staticlib: yard_model behaviour_core behaviour_kinds shard_store shard_entities" >>"$work/crates.txt"
cat >"$work/crates/bench_deliver/src/lib.rt" <<'RATTLE'
//! A million deliveries, for a C program that times them. What they rest on is promised by no caller,
//! so nothing is proved here but that promise's use: it is for measuring alone.
#![tactic(auto)]

use behaviour_core::Behaviour;
use behaviour_kinds::{Cart, Counter};
use shard_entities::Entities;
use shard_store::ShardStore;
use std::alloc::{AllocError, Global};
use yard_model::{
    CartItem, Charter, Command, Config, EntityName, Incarnation, Kind, Line, Message, NodeNo,
    Order, Out, ProducerNo, ShardNo,
};

const WHO: Incarnation = Incarnation {
    node: NodeNo::FIRST,
    number: 1,
};

const BLOCK: u32 = 100;

fn config(kind: Kind, shards: u8) -> Config {
    Config {
        nodes: 2,
        shards,
        producers: 1,
        buffer: 100,
        window: 64,
        snapshot: 100,
        keep: 2,
        remember: false,
        kind,
    }
}

fn name_of(n: u32) -> EntityName
    requires { ⊥ }
{
    let text = [
        b'e',
        b'0' + (n / 100 % 10) as u8,
        b'0' + (n / 10 % 10) as u8,
        b'0' + (n % 10) as u8,
    ];
    EntityName::new(&text).unwrap()
}

fn charter(
    alloc: Global,
    config: Config,
    names: &[EntityName],
    command: Command,
) -> Result<Charter, AllocError>
    requires { ⊥ }
{
    let p = ProducerNo::new(1).unwrap();
    let mut orders = Vec::new(alloc);
    for entity in names {
        orders.push(Line {
            number: 2,
            order: Order::Send(p, *entity, command),
        })?;
    }
    Charter::new(alloc, config, orders)
}

fn start_all(
    alloc: Global,
    charter: &Charter,
    entities: &mut Entities,
    out: &mut Out,
) -> Result<(), AllocError>
    requires { ⊥ }
{
    let shards = charter.config().shards;
    for s in 0..shards {
        let shard = ShardNo::new(s, shards).unwrap();
        let mut store = ShardStore::new(alloc, charter, shard)?;
        store.reserve(200)?;
        store.grant(WHO);
        entities.start(shard, store, out);
    }
    Ok(())
}

/// Takes all items out.
fn drain(out: &mut Out) -> u64
    requires { ⊥ }
{
    let mut count = 0;
    for _ in 0..100_000u32 {
        match out.take() {
            Some(_) => count += 1,
            None => return count,
        }
    }
    count
}

fn message_to(entity: &EntityName, number: u32, command: &Command) -> Message
    requires { ⊥ }
{
    Message {
        producer: ProducerNo::new(1).unwrap(),
        entity: *entity,
        number,
        command: *command,
        origin: WHO,
    }
}

fn warm<B: Behaviour>(
    entities: &mut Entities,
    behaviour: &B,
    names: &[EntityName],
    first: &[Command],
    out: &mut Out,
) -> Result<(), AllocError>
    requires { ⊥ }
{
    for k in 0..first.len() {
        for entity in names {
            entities.reserve()?;
            entities.deliver(message_to(entity, k as u32 + 1, &first[k]), behaviour, out);
            if k == 0 {
                entities.recovered(entity, behaviour, out);
            }
            drain(out);
        }
    }
    Ok(())
}

fn block<B: Behaviour>(
    entities: &mut Entities,
    behaviour: &B,
    names: &[EntityName],
    from: usize,
    number: u32,
    command: &Command,
    out: &mut Out,
) -> usize
    requires { ⊥ }
{
    let mut at = from;
    let mut number = number;
    for _ in 0..BLOCK {
        entities.deliver(message_to(&names[at], number, command), behaviour, out);
        at += 1;
        number += 1;
        if at == names.len() {
            at = 0;
        } else {
            number -= 1;
        }
    }
    at
}

/// What is timed: what comes of it, and room.
fn timed<B: Behaviour>(
    alloc: Global,
    behaviour: &B,
    charter: &Charter,
    names: &[EntityName],
    first: &[Command],
    command: &Command,
    blocks: u32,
    mode: u32,
) -> Result<u64, AllocError>
    requires { ⊥ }
{
    let mut entities = Entities::new(alloc, WHO, 1, charter)?;
    let mut out = Out::new(alloc);
    out.reserve(20_000)?;
    start_all(alloc, charter, &mut entities, &mut out)?;
    drain(&mut out);
    warm(&mut entities, behaviour, names, first, &mut out)?;
    let mut items = 0;
    let mut at = 0;
    let mut done = 0u32;
    for _ in 0..blocks {
        let number = if mode == 1 {
            1
        } else {
            first.len() as u32 + 1 + done / names.len() as u32
        };
        entities.reserve()?;
        out.reserve(2_000)?;
        at = block(
            &mut entities,
            behaviour,
            names,
            at,
            number,
            command,
            &mut out,
        );
        items += drain(&mut out);
        done += BLOCK;
    }
    Ok(items)
}

fn counters(
    alloc: Global,
    count: u32,
    shards: u8,
    blocks: u32,
    mode: u32,
) -> Result<u64, AllocError>
    requires { ⊥ }
{
    let mut names = Vec::new(alloc);
    for n in 0..count {
        names.push(name_of(n))?;
    }
    let command = Command::Add(1);
    let charter = charter(
        alloc,
        config(Kind::Counter, shards),
        names.as_slice(),
        command,
    )?;
    timed(
        alloc,
        &Counter::new(),
        &charter,
        names.as_slice(),
        &[command],
        &command,
        blocks,
        mode,
    )
}

fn cart(alloc: Global, blocks: u32) -> Result<u64, AllocError>
    requires { ⊥ }
{
    let mut names = Vec::new(alloc);
    names.push(name_of(0))?;
    let mut first = Vec::new(alloc);
    for item in 1..17u16 {
        first.push(Command::AddItem(CartItem { item, quantity: 1 }))?;
    }
    let command = Command::AdjustItem(CartItem {
        item: 9,
        quantity: 7,
    });
    let charter = charter(alloc, config(Kind::Cart, 1), names.as_slice(), command)?;
    timed(
        alloc,
        &Cart::new(),
        &charter,
        names.as_slice(),
        first.as_slice(),
        &command,
        blocks,
        0,
    )
}

fn run(alloc: Global, which: u32, blocks: u32) -> Result<u64, AllocError>
    requires { ⊥ }
{
    match which {
        0 => counters(alloc, 1, 1, blocks, 0),
        1 => counters(alloc, 1, 1, blocks, 1),
        2 => counters(alloc, 1000, 8, blocks, 0),
        3 => counters(alloc, 1000, 128, blocks, 0),
        _ => cart(alloc, blocks),
    }
}

/// How many items came of so many times a hundred deliveries.
#[unsafe(no_mangle)]
pub extern "C" fn bench_deliver(alloc: Global, which: u32, blocks: u32) -> u64
    requires { ⊥ }
{
    match run(alloc, which, blocks) {
        Ok(items) => items,
        Err(_) => 0,
    }
}
RATTLE
cat >"$work/main.c" <<'C'
#include <stdbool.h>
#include <stdint.h>
#include <stdio.h>
#include <stdlib.h>
#include <sys/resource.h>
#include <time.h>

struct tried {
    bool ok;
    unsigned char *p;
};

static unsigned char none;

struct tried rattle_alloc(size_t n, size_t a) {
    unsigned char *p = malloc(n ? n : 1);
    return p ? (struct tried){true, p} : (struct tried){false, &none};
}

struct tried rattle_realloc(unsigned char *p, size_t kept, size_t n, size_t a) {
    unsigned char *q = realloc(p, n ? n : 1);
    return q ? (struct tried){true, q} : (struct tried){false, &none};
}

void rattle_dealloc(unsigned char *p) { free(p); }

uint64_t bench_deliver(uint32_t which, uint32_t blocks);

static double all(void) {
    struct timespec t;
    clock_gettime(CLOCK_PROCESS_CPUTIME_ID, &t);
    return t.tv_sec * 1e9 + t.tv_nsec;
}

static double user(void) {
    struct rusage r;
    getrusage(RUSAGE_SELF, &r);
    return r.ru_utime.tv_sec * 1e9 + r.ru_utime.tv_usec * 1e3;
}

int main(void) {
    const char *name[] = {"one counter", "one counter, repeats", "1,000 counters in 8 shards",
                          "1,000 counters in 128 shards", "a cart of 16 items"};
    for (uint32_t which = 0; which < 5; which++) {
        double best = 1e18, best_user = 1e18;
        uint64_t items = 0;
        for (int round = 0; round < 5; round++) {
            bench_deliver(which, 100);
            double a = all(), u = user();
            bench_deliver(which, 100);
            double b = all(), v = user();
            items = bench_deliver(which, 10100);
            double c = all(), w = user();
            double each = ((c - b) - (b - a)) / 1e6, each_user = ((w - v) - (v - u)) / 1e6;
            if (each < best) best = each;
            if (each_user < best_user) best_user = each_user;
        }
        printf("%-30s %6.1f ns a call, %6.1f of them not the kernel's, %.2f items\n", name[which], best,
               best_user, items / 1010000.0);
    }
    return 0;
}
C
log=$work/log
if ! (cd "$work/crates/bench_deliver" && rt lib) >"$log" 2>&1; then
    tail -n 40 "$log" >&2
    exit 1
fi
cc -O2 -o "$work/deliver" "$work/main.c" "$work/crates/bench_deliver/out/libbench_deliver.a" -lm
"$work/deliver"
