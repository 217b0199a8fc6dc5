//! What the tests share.
#![allow(dead_code)]

pub(crate) const ONE: &str = "duckling enlarge academic academic agency result length solution fridge kidney coal piece deal husband erode duke ajar critical decision keyboard";
pub(crate) const ONE_SECRET: &str = "bb54aac4b89dc868ba37d9cc21b2cece";
pub(crate) const TWO: [&str; 2] = [
    "shadow pistol academic always adequate wildlife fancy gross oasis cylinder mustang wrist rescue view short owner flip making coding armed",
    "shadow pistol academic acid actress prayer class unknown daughter sweater depict flip twice unkind craft early superior advocate guest smoking",
];
pub(crate) const PLAN: &str = "2/2of3,1of1,1of1";
pub(crate) const FIVE: [&str; 5] = [
    "academic aluminum acrobat leaf buyer drink heat negative damage union purchase photo inmate training amazing yield bucket wrote mule cluster",
    "academic aluminum acrobat lily august piece column laser headset unusual blimp nuclear sweater criminal credit eyebrow trouble silent axis skin",
    "academic aluminum acrobat lungs dive behavior mobile ting perfect ultimate weapon join paper involve clinic acrobat jerky preach gross usual",
    "academic aluminum beard leader chest elite grant group club deploy increase divorce puny cylinder romp frequent crush ruler erode bucket",
    "academic aluminum ceramic leader cylinder decorate mobile devote echo finger program firm starting dwarf grumpy harvest enforce raisin sprinkle phantom",
];
pub(crate) const FIVE_QUORUMS: [&str; 7] =
    ["0.0+0.1+1.0", "0.0+0.1+2.0", "0.0+0.2+1.0", "0.0+0.2+2.0", "0.1+0.2+1.0", "0.1+0.2+2.0", "1.0+2.0"];
/// Two members of one group, and two members of two groups. Their digests don't match. Another program made them.
pub(crate) const MISMATCHED: [&str; 2] = [
    "academic academic academic acid disease prepare husky home result arcade lunar cover shame email oven tension nylon carpet prospect hand",
    "academic academic academic agency dragon mineral broken simple lips custody flame cylinder ending prune party scout beaver enlarge glasses bundle",
];
pub(crate) const MISMATCHED_GROUPS: [&str; 2] = [
    "academic academic acrobat easy disease prepare husky home result arcade lunar cover shame email oven tension nylon lawsuit smear antenna",
    "academic academic beard easy dragon mineral broken simple lips custody flame cylinder ending prune party scout beaver presence thank adapt",
];
/// Two groups of two members. Only the digest of group 1 doesn't match. Another program made them.
pub(crate) const MISMATCHED_SECOND: [&str; 4] = [
    "desire necklace acrobat echo adult lawsuit blessing inherit moment worthy photo kernel acid soldier burden merit ugly burden hesitate crystal",
    "desire necklace acrobat email canyon evoke debris building always slavery parcel coding earth receiver chubby move glad wildlife tadpole vanish",
    "desire necklace beard echo amuse aspect increase dwarf armed alarm home ruler flea ugly fishing ceramic voting wrist reunion clothes",
    "desire necklace beard email champion paces network afraid infant mobile pregnant desire merit black strategy ceiling move actress thorn view",
];
/// This would be member 3 of group 0 of the backup of `FIVE`, if `PLAN` gave that group four members. Another program made it.
pub(crate) const FOURTH: &str = "academic aluminum acrobat marathon crisis luxury step activity teammate unfair fumes endorse always ranked alto problem mailman ounce teacher bumpy";
/// This has the name of the first mnemonic of `FIVE`, and another value.
pub(crate) const CONFLICTING: &str = "academic aluminum acrobat leaf civil drink heat negative damage union purchase photo inmate training amazing yield bucket lend glance junk";
/// With these random bytes, `2of3` gives the two mnemonics of `TWO` in reverse order, and one between them.
pub(crate) const TWO_SECRET: &str = "b43ceb7e57a0ea8766221624d01b0864";
pub(crate) const TWO_RANDOM: &str = "64359164e7a006aadd75179d6d5c";

/// Gives the bytes of hexadecimal digits.
pub(crate) fn bytes(digits: &str) -> Vec<u8> {
    (0..digits.len()).step_by(2).map(|place| u8::from_str_radix(&digits[place..place + 2], 16).unwrap()).collect()
}

/// Gives the hexadecimal digits of bytes.
pub(crate) fn digits(bytes: &[u8]) -> String {
    bytes.iter().map(|byte| format!("{byte:02x}")).collect()
}

/// A published vector, which is extendable.
pub(crate) const EXTENDABLE: [&str; 2] = [
    "enemy favorite academic acid cowboy phrase havoc level response walnut budget painting inside trash adjust froth kitchen learn tidy punish",
    "enemy favorite academic always academic sniff script carpet romp kind promise scatter center unfair training emphasis evening belong fake enforce",
];

/// The backup by `PLAN` into which `EXTENDABLE` is split anew with the random bytes 0 to 25. Another program made it.
pub(crate) const SPLIT_ANEW: [&str; 5] = [
    "academic apart acrobat leaf diploma profile wireless fluff owner greatest romp tricycle window alarm disease mason argue junior briefing squeeze",
    "academic apart acrobat lily campus welcome capture military elegant fiction beaver duration manual remember decision umbrella true evidence huge sharp",
    "academic apart acrobat lungs clay airport debut stilt together alpha glance element fangs glimpse crowd exclude lunar axle spend diagnose",
    "academic apart beard leader crowd envelope aquatic reject sister loyalty sunlight replace health frequent level crazy bundle document ticket birthday",
    "academic apart ceramic leader alien hamster grasp strike jacket install artwork sidewalk sack fridge venture security method hairy ruin universe",
];
