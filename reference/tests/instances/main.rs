//! Tests on published instances and on jobs at the limits: the files of `data/`.

mod base;
mod calls;
mod documents;
mod limits;
mod one_size;
mod transcription;
