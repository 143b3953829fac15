//! Contexts in which a program keeps its generator. Each work is done in each of them. A function
//! of a context is compiled separately, once for each work.

use crate::mixing::{mixed_items, Mix};
use std::hint::black_box;
use works::{Draw, Whole};

/// The number of items that a run produces.
pub const ITEMS: u32 = 1 << if cfg!(debug_assertions) { 14 } else { 17 };

/// The bounded contexts: see [`draws`].
pub const BOUNDED: [&str; 5] = ["local", "parameter", "field", "capture", "elsewhere"];

/// The contexts that are only reported, without a limit.
pub const TOLD: [&str; 2] = ["thread-local", "dyn"];

/// A generator that a program seeds, and one that each thread has.
pub trait Generator: Sized + 'static {
    fn seeded() -> Self;

    fn with<T>(run: impl FnOnce(&mut Self) -> T) -> T;
}

/// What a context does repeatedly.
pub type Run = Box<dyn FnMut() -> u64>;

fn items_of<T: Copy + Default>(length: u32) -> (Vec<T>, u32) {
    (vec![T::default(); length as usize], ITEMS / length)
}

/// Runs a turn repeatedly, and mixes the items.
pub fn again<R: Generator, T: Copy + Default + Mix + 'static>(
    length: u32,
    mut turn: impl FnMut(&mut R, &mut [T]) + 'static,
) -> Run {
    let (mut items, times) = items_of(length);
    Box::new(move || {
        let mut rng = R::seeded();
        for _ in 0..black_box(times) {
            turn(&mut rng, &mut items);
        }
        mixed_items(&items)
    })
}

/// A slice of this length, filled by draws below the bound.
pub fn draws<D, R, T>(length: u32, bound: T) -> Vec<Run>
where
    D: Draw<R, Item = T> + 'static,
    R: Generator,
    T: Copy + Default + Mix + 'static,
{
    vec![
        draws_of_local::<D, R, T>(length, bound),
        again(length, move |rng, items| {
            drawn_by_parameter::<D, R>(rng, items, bound);
        }),
        draws_of_field::<D, R, T>(length, bound),
        again(length, move |rng, items| {
            drawn_by_capture::<D, R>(rng, items, bound);
        }),
        again(length, move |rng: &mut R, items| {
            works::draw_each::<D, R>(rng, items, bound);
        }),
        again(length, move |_: &mut R, items| {
            drawn_by_thread::<D, R>(items, bound);
        }),
    ]
}

fn draws_of_local<D, R, T>(length: u32, bound: T) -> Run
where
    D: Draw<R, Item = T> + 'static,
    R: Generator,
    T: Copy + Default + Mix + 'static,
{
    let (mut items, times) = items_of(length);
    Box::new(move || {
        drawn_by_local::<D, R>(&mut items, bound, black_box(times));
        mixed_items(&items)
    })
}

#[inline(never)]
fn drawn_by_local<D: Draw<R>, R: Generator>(items: &mut [D::Item], bound: D::Item, times: u32) {
    let mut rng = R::seeded();
    for _ in 0..times {
        for item in &mut *items {
            *item = D::draw(&mut rng, bound);
        }
    }
}

#[inline(never)]
pub fn drawn_by_parameter<D: Draw<R>, R>(rng: &mut R, items: &mut [D::Item], bound: D::Item) {
    for item in items {
        *item = D::draw(rng, bound);
    }
}

struct Game<R, T> {
    rng: R,
    bound: T,
    items: Vec<T>,
}

impl<R, T: Copy> Game<R, T> {
    #[inline(never)]
    fn draw<D: Draw<R, Item = T>>(&mut self) {
        for item in &mut self.items {
            *item = D::draw(&mut self.rng, self.bound);
        }
    }

    #[inline(never)]
    fn run<W: Whole<R, Item = T>>(&mut self) {
        W::run(&mut self.rng, &mut self.items);
    }
}

fn draws_of_field<D, R, T>(length: u32, bound: T) -> Run
where
    D: Draw<R, Item = T> + 'static,
    R: Generator,
    T: Copy + Default + Mix + 'static,
{
    turns_of_game(length, bound, Game::<R, T>::draw::<D>)
}

fn turns_of_game<R, T>(length: u32, bound: T, turn: fn(&mut Game<R, T>)) -> Run
where
    R: Generator,
    T: Copy + Default + Mix + 'static,
{
    let (items, times) = items_of(length);
    let rng = R::seeded();
    let mut game = Game { rng, bound, items };
    Box::new(move || {
        game.rng = R::seeded();
        for _ in 0..black_box(times) {
            turn(&mut game);
        }
        mixed_items(&game.items)
    })
}

#[inline(never)]
fn drawn_by_capture<D: Draw<R>, R>(rng: &mut R, items: &mut [D::Item], bound: D::Item) {
    each(items, &mut || D::draw(rng, bound));
}

// A function that takes a closure, as programs have.
#[inline(never)]
fn each<T>(items: &mut [T], draw: &mut impl FnMut() -> T) {
    for item in items {
        *item = draw();
    }
}

// The thread's generator is looked up for each item.
#[inline(never)]
fn drawn_by_thread<D: Draw<R>, R: Generator>(items: &mut [D::Item], bound: D::Item) {
    for item in items {
        *item = R::with(|rng| D::draw(rng, bound));
    }
}

/// A slice of this length, filled by calls for the whole slice.
pub fn wholes<W, R, T>(length: u32) -> Vec<Run>
where
    W: Whole<R, Item = T> + 'static,
    R: Generator,
    T: Copy + Default + Mix + 'static,
{
    let (mut items, times) = items_of(length);
    vec![
        Box::new(move || {
            run_by_local::<W, R>(&mut items, black_box(times));
            mixed_items(&items)
        }),
        again(length, run_by_parameter::<W, R>),
        turns_of_game(length, T::default(), Game::<R, T>::run::<W>),
        again(length, run_by_capture::<W, R>),
        again(length, works::run_whole::<W, R>),
        again(length, |_: &mut R, items| {
            R::with(|rng| run_by_parameter::<W, R>(rng, items));
        }),
    ]
}

#[inline(never)]
fn run_by_local<W: Whole<R>, R: Generator>(items: &mut [W::Item], times: u32) {
    let mut rng = R::seeded();
    for _ in 0..times {
        W::run(&mut rng, items);
    }
}

#[inline(never)]
pub fn run_by_parameter<W: Whole<R>, R>(rng: &mut R, items: &mut [W::Item]) {
    W::run(rng, items);
}

#[inline(never)]
fn run_by_capture<W: Whole<R>, R>(rng: &mut R, items: &mut [W::Item]) {
    called(items, &mut |items| W::run(rng, items));
}

#[inline(never)]
fn called<T>(items: &mut [T], run: &mut impl FnMut(&mut [T])) {
    run(items);
}
