//! Compares the archive of proved functions with an independent reference.

pub mod archive;
pub mod examples;
pub mod lent;
pub mod plain;
pub mod reference;
pub mod seeded;
pub mod sheets;
pub mod texts;
pub mod timing;
pub mod ways;
