//! Times, as the numbers of their digits: HHMMSS, or HHMMSS and six digits of fraction, or two at the derivatives exchange.

/// Twelve nines: in format six the day's last frame, in format twelve a closing price.
pub const LONG_NINES: u64 = 999_999_999_999;

/// Six nines: in format nineteen a round's end, or a halt that is still open.
pub const SHORT_NINES: u32 = 999_999;

/// Whether HHMMSS is a time of day.
pub fn is_short(time: u32) -> bool {
    let (hours, minutes, seconds) = (time / 10_000, time / 100 % 100, time % 100);
    hours <= 23 && minutes <= 59 && seconds <= 59
}

/// Whether HHMMSScc is a time of day; the hundredths are free.
pub fn is_hundredths(time: u32) -> bool {
    is_short(time / 100)
}

/// Whether HHMMSSffffff is a time of day; the fraction is free.
pub fn is_long(time: u64) -> bool {
    u32::try_from(time / 1_000_000).is_ok_and(is_short)
}
