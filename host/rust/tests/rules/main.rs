//! Holds every call of the library to a separately written implementation of the rules, `reference` and, for modules, `sides`, on drawn
//! sheets and sides: sound and damaged, small and large, with every buffer lent out of the middle of a longer one full of garbage. The
//! draws are fixed by their seeds.
mod beyond;
mod buffers;
mod chain;
mod damaged;
mod distances;
mod draw;
mod known;
mod leaving;
mod lent;
mod lists;
mod marks;
mod modules;
mod pairs;
mod placements;
mod reference;
mod searches;
mod sides;
mod sound;
mod threads;
mod tracks;
mod wrapper;
