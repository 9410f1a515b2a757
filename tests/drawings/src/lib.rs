//! Outlines, figures, rules and jobs to compare on, made from seeds: the same seed gives the same
//! drawing.
//!
//! | Module | Makes |
//! |---|---|
//! | `seeded` | numbers from a seed |
//! | `outlines` | outlines of every sort, which have one ring, sound and bad |
//! | `figures` | figures of several rings, sound and bad |
//! | `jobs` | jobs, sound and damaged |
//! | `elements` | boundary elements of GDSII streams, sound and damaged |
//! | `shots` | lists of shots to join, sound and bad |
//! | `texts` | CIF texts of shot lists, sound and damaged |
//! | `document` | the drawings of the scope, and those of windows, with their outcomes |

pub mod document;
pub mod elements;
pub mod figures;
pub mod jobs;
pub mod outlines;
pub mod seeded;
pub mod shots;
pub mod texts;
