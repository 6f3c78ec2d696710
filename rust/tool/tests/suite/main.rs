//! The tests of the program `dimkhoros`.

mod browser;
mod colours;
mod desk;
mod draws;
mod examples;
mod files;
mod generator;
mod json;
mod lecture;
mod ledgers;
mod lines;
mod marks;
mod markup;
mod material;
#[path = "../../../sys/tests/suite/outside.rs"]
mod outside;
mod pages;
mod play;
mod random;
mod readme;
mod reasons;
mod transcripts;
