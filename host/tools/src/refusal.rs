//! The documents' refusal numbers in words, for warnings and for the picture.

pub fn meaning(number: u32) -> &'static str {
    match number {
        1 => "the plan block is shorter than 2 bytes",
        2 => "the edition is not 1 or 2",
        3 => "the count is not 1 to 16",
        4 => "the plan block's length is not the edition's and the count's",
        5 => "the closing bits are not zero",
        6 => "a period or a worst case is out of range",
        7 => "the hyperperiod is over 1,000,000",
        8 => "no level admits the plan",
        9 => "the lent buffer is too short",
        10 => "the state is not sound",
        11 => "d is 0",
        12 => "d goes past the next arrival",
        13 => "no job is running that could finish",
        14 => "d is more than the running job can take",
        15 => "the clock would go past its largest",
        16 => "an odd byte is left",
        17 => "the input is longer than 65,536 bytes",
        18 => "the level block is empty, or its count is not 1 to 8",
        19 => "the level block's length is not the count's, or its closing bits are not zero",
        20 => "a speed is not 1 to 1,000, or not above the one before it",
        21 => "the edition is 2, but no task has fixed ticks or a floor",
        22 => "there are more than 16 pairs, or an odd byte, or a pair is not good",
        23 => "the angle is not -50 to 1,300 tenths of a degree",
        24 => "a floor is not the number of a loaded level",
        _ => "not a refusal of the documents",
    }
}
