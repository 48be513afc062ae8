//! What listed messages have that is worth a question: windows that meet, that
//! fill their period, that reach over t = 0.

use crate::model::system_information::{Messages, MESSAGE_PERIOD};

/// Is a frame in windows of two entries?
pub fn windows_overlap(messages: &Messages) -> bool {
    let mut open = vec![false; (MESSAGE_PERIOD / 10) as usize];
    for entry in 0..messages.count as usize {
        let windows = messages.windows(entry);
        let mut frames = Vec::new();
        for window in windows {
            frames.extend((window.start / 10..window.end / 10).map(|f| f % (MESSAGE_PERIOD / 10)));
        }
        if frames.iter().any(|&frame| open[frame as usize]) {
            return true;
        }
        for frame in frames {
            open[frame as usize] = true;
        }
    }
    false
}

/// Is a window as long as its period?
pub fn window_fills_period(messages: &Messages) -> bool {
    let frames = messages.window_frames();
    messages.entries_in_use().iter().any(|s| s.period == frames)
}

/// Does a window open before t = 0 and end after it?
pub fn window_reaches_over_zero(messages: &Messages) -> bool {
    let reaches = |entry: usize| {
        let period = messages.entries[entry].period;
        messages.opening_frame(entry) + messages.window_frames() > period
    };
    (0..messages.count as usize).any(reaches)
}
