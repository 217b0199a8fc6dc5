"""Worked examples of each call of the library, with values from outside: published vectors, and what other programs computed.

tools/check_portable/driver.c makes the calls, and tools/worked_cases.py gives the examples to the other languages. In C, each is also made
with an output that is one byte longer, with one that is one byte too short, and with NULL in its place. A refusal comes before that of the
room. For each answer, shamir_text gives its text, and so does the text's own call with such outputs.
"""
import importlib
import json
import re
from dataclasses import dataclass
from typing import Any, Iterator, List, Optional, Sequence, Tuple, Union

import driver
import shamir_h

plain: Any = importlib.import_module("plain")

ROOM = 1024
MARK = 0xA5
# The fields of a judgement, if a call leaves them as they are. Those of a share are the first eight.
UNFILLED = (MARK << 8 | MARK, *[MARK] * 8)
DIGITS, FINGERPRINTS, EXPECTED = range(3)
OF_GROUPS = 16
TOO_SHORT = 1

KEY = "TREZOR"
SECRET = bytes.fromhex("bb54aac4b89dc868ba37d9cc21b2cece")
TWO_SECRET = bytes.fromhex("b43ceb7e57a0ea8766221624d01b0864")
# The first vector gives this secret with the empty passphrase.
OTHER_SECRET = bytes.fromhex("3972a9318cf16a33ee9b0564c5a0bd0b")
ONE_RANDOM = bytes.fromhex("1f09")
TWO_RANDOM = bytes.fromhex("64359164e7a006aadd75179d6d5c")
FIVE_PLAN = "2/2of3,1of1,1of1"
FIVE_RANDOM = bytes(range(26))

# The first vector, and the same mnemonic with a wrong last word, so that its checksum is wrong.
REST = "result length solution fridge kidney coal piece deal husband erode duke ajar critical decision "
ONE = "duckling enlarge academic academic agency " + REST + "keyboard"
ONE_WRONG = "duckling enlarge academic academic agency " + REST + "kidney"
# A vector whose extendable flag is set.
EXTENDABLE = "testify swimming academic academic column loyalty smear include exotic bedroom exotic wrist lobe cover grief golden smart junior estimate learn"
# Members 0 and 2 are a vector of two mnemonics, both of which are needed. Another program computed member 1.
TWO_0 = "shadow pistol academic acid actress prayer class unknown daughter sweater depict flip twice unkind craft early superior advocate guest smoking"
TWO_1 = "shadow pistol academic agency acid license obtain preach firefly permit flavor library learn tension flea unusual nylon terminal exercise become"
TWO_2 = "shadow pistol academic always adequate wildlife fancy gross oasis cylinder mustang wrist rescue view short owner flip making coding armed"
# Another program created this backup of the first vector's secret, from the plan and the random bytes above.
FIVE_0 = "academic aluminum acrobat leaf buyer drink heat negative damage union purchase photo inmate training amazing yield bucket wrote mule cluster"
FIVE_1 = "academic aluminum acrobat lily august piece column laser headset unusual blimp nuclear sweater criminal credit eyebrow trouble silent axis skin"
FIVE_2 = "academic aluminum acrobat lungs dive behavior mobile ting perfect ultimate weapon join paper involve clinic acrobat jerky preach gross usual"
FIVE_3 = "academic aluminum beard leader chest elite grant group club deploy increase divorce puny cylinder romp frequent crush ruler erode bucket"
FIVE_4 = (
    "academic aluminum ceramic leader cylinder decorate mobile devote echo finger program firm starting dwarf grumpy harvest enforce raisin sprinkle phantom"
)
FIVE = [FIVE_0, FIVE_1, FIVE_2, FIVE_3, FIVE_4]
FOUR = [FIVE_0, FIVE_1, FIVE_3, FIVE_4]
# Member 3 of group 0, by a plan that gives this group four members.
FIVE_LARGER_PLAN = "2/2of4,1of1,1of1"
FIVE_0_3 = "academic aluminum acrobat marathon crisis luxury step activity teammate unfair fumes endorse always ranked alto problem mailman ounce teacher bumpy"
# Members 0 and 2 are a vector of two extendable mnemonics, with the identifier 0x236a. Another program computed the second with another
# first byte of its value, and the new backups: by the plan 1of1 with the random bytes 0x12 and 0x34, and by FIVE_PLAN.
OLD_0 = "enemy favorite academic acid cowboy phrase havoc level response walnut budget painting inside trash adjust froth kitchen learn tidy punish"
OLD_2 = "enemy favorite academic always academic sniff script carpet romp kind promise scatter center unfair training emphasis evening belong fake enforce"
OLD_FORGED_2 = "enemy favorite academic always acid sniff script carpet romp kind promise scatter center unfair training emphasis evening crisis gasoline making"
NEW_ONE = "cleanup pecan academic academic broken exact editor public best party forecast darkness burning yelp window mama warmth market laundry response"
NEW_FIVE = [
    "academic apart acrobat leaf diploma profile wireless fluff owner greatest romp tricycle window alarm disease mason argue junior briefing squeeze",
    "academic apart acrobat lily campus welcome capture military elegant fiction beaver duration manual remember decision umbrella true evidence huge sharp",
    "academic apart acrobat lungs clay airport debut stilt together alpha glance element fangs glimpse crowd exclude lunar axle spend diagnose",
    "academic apart beard leader crowd envelope aquatic reject sister loyalty sunlight replace health frequent level crazy bundle document ticket birthday",
    "academic apart ceramic leader alien hamster grasp strike jacket install artwork sidewalk sack fridge venture security method hairy ruin universe",
]
# Members 0 and 2 of group 0, with the first bytes of their values exchanged.
FORGED_0 = "academic aluminum acrobat leaf civil drink heat negative damage union purchase photo inmate training amazing yield bucket lend glance junk"
FORGED_2 = "academic aluminum acrobat lungs alcohol behavior mobile ting perfect ultimate weapon join paper involve clinic acrobat jerky pencil username device"
# Member 0 of group 1, with another first byte.
FORGED_3 = "academic aluminum beard leader campus elite grant group club deploy increase divorce puny cylinder romp frequent crush reward rich email"
# Two members of a group, and one member of each of two groups. Another program made them, with digests that don't match.
UNEVEN_0 = "academic academic academic acid disease prepare husky home result arcade lunar cover shame email oven tension nylon carpet prospect hand"
UNEVEN_1 = "academic academic academic agency dragon mineral broken simple lips custody flame cylinder ending prune party scout beaver enlarge glasses bundle"
UNEVEN_GROUP_0 = "academic academic acrobat easy disease prepare husky home result arcade lunar cover shame email oven tension nylon lawsuit smear antenna"
UNEVEN_GROUP_1 = "academic academic beard easy dragon mineral broken simple lips custody flame cylinder ending prune party scout beaver presence thank adapt"
# Two groups of two members. Another program made them. Only the digest of group 1 doesn't match.
SECOND_UNEVEN = [
    "desire necklace acrobat echo adult lawsuit blessing inherit moment worthy photo kernel acid soldier burden merit ugly burden hesitate crystal",
    "desire necklace acrobat email canyon evoke debris building always slavery parcel coding earth receiver chubby move glad wildlife tadpole vanish",
    "desire necklace beard echo amuse aspect increase dwarf armed alarm home ruler flea ugly fishing ceramic voting wrist reunion clothes",
    "desire necklace beard email champion paces network afraid infant mobile pregnant desire merit black strategy ceiling move actress thorn view",
]
# The first two with the exponent 1.
SLOW_UNEVEN_0 = "academic acid academic acid disease prepare husky home result arcade lunar cover shame email oven tension nylon graduate hobo ivory"
SLOW_UNEVEN_1 = "academic acid academic agency dragon mineral broken simple lips custody flame cylinder ending prune party scout beaver deploy rhythm ancient"

# The two old ones and the new one with the exponent 15.
HIGH_OLD_0 = "enemy flavor academic acid cowboy phrase havoc level response walnut budget painting inside trash adjust froth kitchen display birthday exhaust"
HIGH_OLD_2 = "enemy flavor academic always academic sniff script carpet romp kind promise scatter center unfair training emphasis evening practice painting regret"
HIGH_NEW_ONE = "cleanup pile academic academic broken exact editor public best party forecast darkness burning yelp window mama warmth destroy mayor element"
# A vector whose secret has 32 bytes.
LONG = "theory painting academic academic armed sweater year military elder discuss acne wildlife boring employer fused large satoshi bundle carbon diagnose anatomy hamster leaves tracks paces beyond phantom capital marvel lips brave detect luck"
# The only members of two groups of which one is needed, with two values: that of the first vector, and another. Another program wrote them.
OTHER_GROUP_0 = "duckling enlarge academic easy agency result length solution fridge kidney coal piece deal husband erode duke ajar glasses leaf dive"
OTHER_GROUP_1 = "duckling enlarge away easy academic acrobat aluminum debris activity alarm busy learn election animal deal snapshot likely standard alien paper"

# Another program made these from the first vector: with a padding bit that isn't 0, with a group threshold of 2, and with a group count of 16.
BAD_PADDING = "duckling enlarge academic academic email result length solution fridge kidney coal piece deal husband erode duke ajar music cargo fitness"
BAD_GROUP_THRESHOLD = "duckling enlarge acrobat academic agency result length solution fridge kidney coal piece deal husband erode duke ajar hawk fatal desert"
SIXTEEN = "duckling enlarge acquire romp agency result length solution fridge kidney coal piece deal husband erode duke ajar elbow entrance empty"


@dataclass(frozen=True)
class Answer:
    """The fields of an answer except `mismatches` and `written`, and its text."""

    code: int
    told: str
    line: int = 0
    first: int = 0
    second: int = 0


def done(first: int, second: int) -> Answer:
    return Answer(0, "done", first=first, second=second)


DONE = done(0, 0)
# The vector of two mnemonics has the exponent 2.
HIGH = Answer(3, "exponent 2 above the maximum", first=2)

Row = Tuple[Any, ...]
# Why a mnemonic can't stand beside SIXTEEN. Another program changed one field of that, or the value.
BESIDE_SIXTEEN: List[Row] = [
    ("duckling evil acquire romp agency result length solution fridge kidney coal piece deal husband erode duke ajar failure vexed course", Answer(22, "other extendable flag", line=2)),
    ("duckling entrance acquire romp agency result length solution fridge kidney coal piece deal husband erode duke ajar dive mountain fiction", Answer(23, "other exponent", line=2)),
    ("duckling enlarge adapt romp agency result length solution fridge kidney coal piece deal husband erode duke ajar advocate criminal artist", Answer(24, "other group threshold", line=2)),
    (OTHER_GROUP_0, Answer(25, "other group count", line=2)),
    ("duckling enlarge acquire romp academic academic academic academic academic academic academic academic academic academic academic academic academic academic academic quantity glad seafood", Answer(26, "other length", line=2)),
    ("duckling enlarge acquire scared agency result length solution fridge kidney coal piece deal husband erode duke ajar rhyme duckling taste", Answer(27, "other member threshold in group 0", line=2)),
    ("duckling enlarge acquire romp academic academic academic academic academic academic academic academic academic academic academic academic academic beyond system salary", Answer(28, "conflicting share 0.0", line=2)),
]

# None stands for NULL with the length 0, and so do no lines.
PARSED: List[Row] = [
    (ONE, DONE, "11bc609d21747c49ba78c0701293e417", (7945, 0, 0, 0, 1, 1, 0, 1)),
    (TWO_0, DONE, "06ab48fef4bedc8ce58baeef0a73f76e", (25653, 0, 2, 0, 1, 1, 0, 2)),
    (TWO_2, DONE, "08fb14b66e692e25dfe2edf53289ed62", (25653, 0, 2, 0, 1, 1, 2, 2)),
    (EXTENDABLE, DONE, "9e8773c7313b11d3bfe219291976433b", (29019, 1, 3, 0, 1, 1, 0, 1)),
    (FIVE_4, DONE, "b831a4c3610155ebe5675e3ed9e6a11d", (1, 0, 0, 2, 2, 3, 0, 1)),
    (ONE_WRONG, Answer(13, "bad checksum"), "", None),
    (BAD_PADDING, Answer(14, "bad padding"), "", None),
    (BAD_GROUP_THRESHOLD, Answer(15, "group threshold above group count"), "", None),
    (ONE + " academic", Answer(12, "21 words make no share", first=21), "", None),
    (ONE + "\n", Answer(11, "unknown word 20", first=20), "", None),
    ("", Answer(12, "0 words make no share"), "", None),
    ("academic academia", Answer(11, "unknown word 2", first=2), "", None),
    (None, Answer(12, "0 words make no share"), "", None),
]

NUMBERS: List[Row] = [
    ("1of1", 16, done(2, 0)),
    ("2of3", 16, done(14, 0)),
    (FIVE_PLAN, 16, done(26, 0)),
    (FIVE_PLAN, 32, done(58, 0)),
    (FIVE_PLAN, 15, Answer(42, "secret of 15 bytes", first=15)),
    (FIVE_PLAN, 17, Answer(42, "secret of 17 bytes", first=17)),
    ("1of1,1of3", 16, Answer(31, "bad plan")),
    ("1of1\xff", 16, Answer(31, "bad plan")),
    ("2/1of1", 15, Answer(32, "bad number of groups in plan")),
    ("2/2of2,1of2", 15, Answer(34, "one of many in plan group 1", first=1)),
    # The groups are judged one after the other. Group 1 alone would be refused with 33.
    ("2/1of3,5of2", 16, Answer(34, "one of many in plan group 0")),
    ("2/3of3,5of2", 16, Answer(33, "bad number of members in plan group 1", first=1)),
    (None, 15, Answer(31, "bad plan")),
]

CREATED: List[Row] = [
    ("1of1", SECRET, KEY, 0, ONE_RANDOM, done(1, 0), [ONE]),
    ("2of3", TWO_SECRET, KEY, 2, TWO_RANDOM, done(3, 0), [TWO_0, TWO_1, TWO_2]),
    (FIVE_PLAN, SECRET, KEY, 0, FIVE_RANDOM, done(5, 0), FIVE),
    ("1of1", OTHER_SECRET, None, 0, ONE_RANDOM, done(1, 0), [ONE]),
    (None, None, "a\x07", 16, None, Answer(2, "number out of range"), []),
    (None, None, "a\x07", 0, None, Answer(31, "bad plan"), []),
    (FIVE_PLAN, None, "a\x07", 0, None, Answer(41, "passphrase byte 2 not printable", first=2), []),
    (FIVE_PLAN, None, KEY, 0, None, Answer(42, "secret of 0 bytes"), []),
    (FIVE_PLAN, SECRET, KEY, 0, None, Answer(43, "random bytes: 26 needed", first=26), []),
    ("0of0", None, "a\x07", 16, None, Answer(2, "number out of range"), []),
    ("2/1of1", None, "a\x07", 15, None, Answer(32, "bad number of groups in plan"), []),
    ("2/1of3,5of2", None, "a\x07", 15, None, Answer(34, "one of many in plan group 0"), []),
    ("2/2of2,3of2", None, "a\x07", 15, None, Answer(33, "bad number of members in plan group 1", first=1), []),
    ("1of1", "fourteen bytes", None, 0, None, Answer(42, "secret of 14 bytes", first=14), []),
    ("1of1", SECRET, None, 0, bytes(3), Answer(43, "random bytes: 2 needed", first=2), []),
]

# Each call that takes the lines of a backup refuses these, if nothing before them is refused.
REFUSED_LINES: List[Row] = [
    (None, Answer(29, "no shares")),
    ([], Answer(29, "no shares")),
    ([""], Answer(29, "no shares")),
    ([ONE_WRONG], Answer(13, "bad checksum", line=1)),
    ([FIVE_3, ONE_WRONG], Answer(13, "bad checksum", line=2)),
    (["# a note", ONE_WRONG], Answer(13, "bad checksum", line=2)),
    ([OLD_0, "academia"], Answer(11, "unknown word 1", line=2, first=1)),
    ([FIVE_0, "#", "academia"], Answer(11, "unknown word 1", line=3, first=1)),
    (["", "#", "academic x"], Answer(11, "unknown word 2", line=3, first=2)),
    ([TWO_0, ONE], Answer(21, "other identifier", line=2)),
    ([OLD_0, ONE], Answer(21, "other identifier", line=2)),
    ([FIVE_0, FORGED_0], Answer(28, "conflicting share 0.0", line=2)),
    ([FIVE_2, "", FORGED_2], Answer(28, "conflicting share 0.2", line=3, second=2)),
    ([ONE + " academic"], Answer(12, "21 words make no share", line=1, first=21)),
    (["", BAD_PADDING], Answer(14, "bad padding", line=2)),
    ([BAD_GROUP_THRESHOLD], Answer(15, "group threshold above group count", line=1)),
    *(([SIXTEEN, line], answer) for line, answer in BESIDE_SIXTEEN),
    (["#" * 1025], Answer(71, "line too long", line=1)),
]

RECOVERED: List[Row] = [
    ([ONE], KEY, 0, None, DONE, SECRET),
    ([TWO_2, TWO_0], KEY, 2, None, DONE, TWO_SECRET),
    ([TWO_2, TWO_0], KEY, 1, None, HIGH, ""),
    ([TWO_2, "# a comment", "", TWO_0], KEY, 15, None, DONE, TWO_SECRET),
    ([TWO_2, TWO_0], KEY, 2**32 - 1, None, DONE, TWO_SECRET),
    ([TWO_2, TWO_0], KEY, 0, None, HIGH, ""),
    ([TWO_2, TWO_0], "a\x07", 0, None, Answer(41, "passphrase byte 2 not printable", first=2), ""),
    ([SLOW_UNEVEN_0, SLOW_UNEVEN_1], None, 0, None, Answer(3, "exponent 1 above the maximum", first=1), ""),
    ([SLOW_UNEVEN_0, SLOW_UNEVEN_1], None, 1, None, Answer(51, "digest mismatch in group 0"), ""),
    (FIVE, KEY, 15, None, DONE, SECRET),
    ([FIVE_3, "", "# a note", FIVE_4], KEY, 15, None, DONE, SECRET),
    ([ONE], None, 0, None, DONE, OTHER_SECRET),
    ([TWO_0], KEY, 0, None, Answer(30, "incomplete: 0 of 1 groups", second=1), ""),
    ([FIVE_3], KEY, 0, None, Answer(30, "incomplete: 1 of 2 groups", first=1, second=2), ""),
    (SECOND_UNEVEN, None, 15, None, Answer(51, "digest mismatch in group 1", first=1), ""),
    ([UNEVEN_0, UNEVEN_1], None, 15, None, Answer(51, "digest mismatch in group 0"), ""),
    ([UNEVEN_GROUP_0, UNEVEN_GROUP_1], None, 15, None, Answer(51, "digest mismatch of groups", first=OF_GROUPS), ""),
    ([], "a\x07", 0, None, Answer(41, "passphrase byte 2 not printable", first=2), ""),
    ([ONE], KEY, 0, "df41d8fe", DONE, SECRET),
    (FIVE, KEY, 0, "DF41D8fe", DONE, SECRET),
    ([ONE], KEY, 0, "df41d8ff", Answer(52, "other secret"), ""),
    ([ONE], None, 0, "df41d8fe", Answer(52, "other secret"), ""),
    ([ONE], KEY, 0, "df41d8f", Answer(44, "bad fingerprint"), ""),
    ([ONE], KEY, 0, "df41d8fe0", Answer(44, "bad fingerprint"), ""),
    ([], "a\x07", 0, "df41d8fg", Answer(44, "bad fingerprint"), ""),
    ([TWO_2, TWO_0], KEY, 1, "df41d8fg", Answer(44, "bad fingerprint"), ""),
    ([TWO_2, TWO_0], KEY, 1, "df41d8fe", HIGH, ""),
    (FOUR, KEY, 0, "Df41d8fE", DONE, SECRET),
    (FOUR, KEY, 0, "ef41d8fe", Answer(52, "other secret"), ""),
    (FOUR, KEY, 0, "df41d8fe00", Answer(44, "bad fingerprint"), ""),
    (FOUR, KEY, 0, " df41d8fe", Answer(44, "bad fingerprint"), ""),
    (FOUR, "a\x07", 0, "df41d8f", Answer(44, "bad fingerprint"), ""),
    (["ducklin"], None, 0, "0", Answer(44, "bad fingerprint"), ""),
    (FOUR, "a\x07", 0, "00000000", Answer(41, "passphrase byte 2 not printable", first=2), ""),
    ([], None, 0, "00000000", Answer(29, "no shares"), ""),
    (FOUR, KEY, 0, "00000000", Answer(52, "other secret"), ""),
    ([SLOW_UNEVEN_0, SLOW_UNEVEN_1], None, 0, "00000000", Answer(3, "exponent 1 above the maximum", first=1), ""),
    ([SLOW_UNEVEN_0, SLOW_UNEVEN_1], None, 1, "00000000", Answer(51, "digest mismatch in group 0"), ""),
]


# tools/plain.py computed the encrypted secrets. The passphrase gives the secrets of the vectors with them.
ONE_KEPT, ONE_ENCRYPTED = (7945, 0, 0), bytes.fromhex("11bc609d21747c49ba78c0701293e417")
TWO_KEPT, TWO_ENCRYPTED = (25653, 0, 2), bytes.fromhex("cdc017fddc829e791b1371780be0605a")
FIVE_KEPT, FIVE_ENCRYPTED = (1, 0, 0), bytes.fromhex("ae3283670d8226e104447ff0a4a32f69")
OLD_KEPT, OLD_ENCRYPTED = (9066, 1, 0), bytes.fromhex("644c905b0c4da21692f06fff3ed8b3e1")
LONG_KEPT, LONG_ENCRYPTED = (29172, 0, 0), bytes.fromhex("d772fee46424e100bec16d165f1fcc346d1e8d909da580f9f9f04ea5c788d212")
SLOW_KEPT, SLOW_ENCRYPTED = (29019, 1, 3), bytes.fromhex("9e8773c7313b11d3bfe219291976433b")

# After the output come the parameters.
ENCRYPTED: List[Row] = [
    ([ONE], DONE, ONE_ENCRYPTED, ONE_KEPT),
    ([TWO_2, TWO_0], DONE, TWO_ENCRYPTED, TWO_KEPT),
    (["# a note", "", FIVE_4, FIVE_3], DONE, FIVE_ENCRYPTED, FIVE_KEPT),
    ([OLD_0, OLD_2], DONE, OLD_ENCRYPTED, OLD_KEPT),
    ([EXTENDABLE], DONE, SLOW_ENCRYPTED, SLOW_KEPT),
    ([HIGH_OLD_0, HIGH_OLD_2], DONE, OLD_ENCRYPTED, (9066, 1, 15)),
    ([LONG], DONE, LONG_ENCRYPTED, LONG_KEPT),
    ([OTHER_GROUP_1, OTHER_GROUP_0], DONE, ONE_ENCRYPTED, ONE_KEPT),
    (NEW_FIVE[3:], DONE, OLD_ENCRYPTED, (1, 1, 0)),
    ([OLD_0, OLD_FORGED_2], Answer(51, "digest mismatch in group 0"), "", None),
    # The first quorum is taken, and no other one is tried.
    ([FIVE_0, FIVE_1, FORGED_2, FIVE_3, FIVE_4], DONE, FIVE_ENCRYPTED, FIVE_KEPT),
    ([FORGED_0, FIVE_1, FIVE_2, FIVE_3, FIVE_4], Answer(51, "digest mismatch in group 0"), "", None),
    ([UNEVEN_GROUP_0, UNEVEN_GROUP_1], Answer(51, "digest mismatch of groups", first=OF_GROUPS), "", None),
    (SECOND_UNEVEN, Answer(51, "digest mismatch in group 1", first=1), "", None),
    ([TWO_0], Answer(30, "incomplete: 0 of 1 groups", second=1), "", None),
    ([FIVE_3], Answer(30, "incomplete: 1 of 2 groups", first=1, second=2), "", None),
]

DECRYPTED: List[Row] = [
    (ONE_KEPT, ONE_ENCRYPTED, KEY, None, DONE, SECRET),
    (ONE_KEPT, ONE_ENCRYPTED, None, None, DONE, OTHER_SECRET),
    (TWO_KEPT, TWO_ENCRYPTED, KEY, "5f5702dc", DONE, TWO_SECRET),
    (FIVE_KEPT, FIVE_ENCRYPTED, KEY, "DF41D8fe", DONE, SECRET),
    (OLD_KEPT, OLD_ENCRYPTED, KEY, None, DONE, bytes.fromhex("48b1a4b80b8c209ad42c33672bdaa428")),
    (SLOW_KEPT, SLOW_ENCRYPTED, KEY, None, DONE, bytes.fromhex("1679b4516e0ee5954351d288a838f45e")),
    # The identifier of an extendable backup isn't in the encryption.
    ((32767, 1, 0), OLD_ENCRYPTED, KEY, None, DONE, bytes.fromhex("48b1a4b80b8c209ad42c33672bdaa428")),
    ((7945, 1, 0), ONE_ENCRYPTED, KEY, None, DONE, bytes.fromhex("941215fb2febb8a90226a06bb2da7369")),
    ((7946, 0, 0), ONE_ENCRYPTED, KEY, None, DONE, bytes.fromhex("e20b307c61a45bb484d686d8e3d2fc21")),
    ((7945, 0, 1), ONE_ENCRYPTED, KEY, None, DONE, bytes.fromhex("35924c22e1e77fd21bcfe7d47deb384b")),
    (LONG_KEPT, LONG_ENCRYPTED, KEY, None, DONE, bytes.fromhex("989baf9dcaad5b10ca33dfd8cc75e42477025dce88ae83e75a230086a0e00e92")),
    ((0, 1, 0), bytes(range(128)), KEY, None, DONE, bytes.fromhex("bb03bc2138fc7b225d025b78a69e07185dab20232a0f825f0e6c196274d9b21d927bbe7014e03f56407de94bdc27fce4aa30a9be92d53c485611f89aba163fed347ca4c8dcb6b2a9440b8e94326619b956c546b07eada77c64cf6e228c91ec6d86866445af8b37d19349b407b4a771ff0abb70bf1aae2ac2922b026b78967725")),
    ((32768, 0, 0), None, "a\x07", "0", Answer(2, "number out of range"), ""),
    ((65535, 1, 0), ONE_ENCRYPTED, KEY, None, Answer(2, "number out of range"), ""),
    ((1, 2, 0), None, "a\x07", "0", Answer(2, "number out of range"), ""),
    ((1, 255, 0), ONE_ENCRYPTED, KEY, None, Answer(2, "number out of range"), ""),
    ((1, 0, 16), None, "a\x07", "0", Answer(2, "number out of range"), ""),
    ((1, 1, 255), ONE_ENCRYPTED, KEY, None, Answer(2, "number out of range"), ""),
    (ONE_KEPT, None, "a\x07", "df41d8f", Answer(44, "bad fingerprint"), ""),
    (ONE_KEPT, None, "a\x07", "df41d8fg", Answer(44, "bad fingerprint"), ""),
    (ONE_KEPT, None, "a\x07", "df41d8fe", Answer(41, "passphrase byte 2 not printable", first=2), ""),
    (ONE_KEPT, None, KEY, None, Answer(42, "secret of 0 bytes"), ""),
    (ONE_KEPT, SECRET[1:], KEY, "df41d8fe", Answer(42, "secret of 15 bytes", first=15), ""),
    (ONE_KEPT, SECRET + b"\n", KEY, None, Answer(42, "secret of 17 bytes", first=17), ""),
    (ONE_KEPT, bytes(130), KEY, None, Answer(42, "secret of 130 bytes", first=130), ""),
    (ONE_KEPT, ONE_ENCRYPTED, KEY, "df41d8ff", Answer(52, "other secret"), ""),
    (ONE_KEPT, ONE_ENCRYPTED, None, "df41d8fe", Answer(52, "other secret"), ""),
]

# What the rounds 3 to 0 leave of an encrypted secret. hashlib.pbkdf2_hmac computed it.
UNDONE: List[Row] = [
    (ONE_KEPT, ONE_ENCRYPTED, KEY, [
        "ba78c0701293e417dbdaa6df3514c7a6",
        "dbdaa6df3514c7a6c5644ef3eb053de2",
        "c5644ef3eb053de2ba37d9cc21b2cece",
        "bb54aac4b89dc868ba37d9cc21b2cece",
    ]),
    (ONE_KEPT, ONE_ENCRYPTED, None, [
        "ba78c0701293e41727b7dbfbe08e83ce",
        "27b7dbfbe08e83ce929d7db489dd6c4d",
        "929d7db489dd6c4dee9b0564c5a0bd0b",
        "3972a9318cf16a33ee9b0564c5a0bd0b",
    ]),
    (FIVE_KEPT, FIVE_ENCRYPTED, KEY, [
        "04447ff0a4a32f695ba74e3c43bc2c75",
        "5ba74e3c43bc2c757b3377e2884ece1f",
        "7b3377e2884ece1fba37d9cc21b2cece",
        "bb54aac4b89dc868ba37d9cc21b2cece",
    ]),
    (OLD_KEPT, OLD_ENCRYPTED, KEY, [
        "92f06fff3ed8b3e1cbed64bd59fb2d4e",
        "cbed64bd59fb2d4eff09ffde7df70e2f",
        "ff09ffde7df70e2fd42c33672bdaa428",
        "48b1a4b80b8c209ad42c33672bdaa428",
    ]),
    (SLOW_KEPT, SLOW_ENCRYPTED, KEY, [
        "bfe219291976433b3b28daded89eb0ab",
        "3b28daded89eb0abfcc84b573aa13684",
        "fcc84b573aa136844351d288a838f45e",
        "1679b4516e0ee5954351d288a838f45e",
    ]),
    (LONG_KEPT, LONG_ENCRYPTED, KEY, [
        "6d1e8d909da580f9f9f04ea5c788d2121b68eb6904d344598a7e982732ac70ab",
        "1b68eb6904d344598a7e982732ac70ab137298438520fa93b0212c0aacc71c0c",
        "137298438520fa93b0212c0aacc71c0c77025dce88ae83e75a230086a0e00e92",
        "989baf9dcaad5b10ca33dfd8cc75e42477025dce88ae83e75a230086a0e00e92",
    ]),
    ((0, 1, 0), bytes(range(128)), KEY, [
        "404142434445464748494a4b4c4d4e4f505152535455565758595a5b5c5d5e5f606162636465666768696a6b6c6d6e6f707172737475767778797a7b7c7d7e7ff8b1209036073b774b3ee0aac4af080d705f9c6f156e88242805270d19d208e2246f69e1ed31d5c6a5825f5b33657c492f62a233cbc65ff7db05682fe003ce9b",
        "f8b1209036073b774b3ee0aac4af080d705f9c6f156e88242805270d19d208e2246f69e1ed31d5c6a5825f5b33657c492f62a233cbc65ff7db05682fe003ce9be968b19f6d69c92b97d46b3848afaa32b73493c9729b610ae8d9c1de9e663c85b513fcef525f0164ef0de98a9e7c0a627ccd1f5ff5475f28c20371373840fed8",
        "e968b19f6d69c92b97d46b3848afaa32b73493c9729b610ae8d9c1de9e663c85b513fcef525f0164ef0de98a9e7c0a627ccd1f5ff5475f28c20371373840fed8347ca4c8dcb6b2a9440b8e94326619b956c546b07eada77c64cf6e228c91ec6d86866445af8b37d19349b407b4a771ff0abb70bf1aae2ac2922b026b78967725",
        "bb03bc2138fc7b225d025b78a69e07185dab20232a0f825f0e6c196274d9b21d927bbe7014e03f56407de94bdc27fce4aa30a9be92d53c485611f89aba163fed347ca4c8dcb6b2a9440b8e94326619b956c546b07eada77c64cf6e228c91ec6d86866445af8b37d19349b407b4a771ff0abb70bf1aae2ac2922b026b78967725",
    ]),
]

# A round that is refused.
ROUNDS: List[Row] = [
    ((32768, 0, 0), 4, None, "a\x07", Answer(2, "number out of range")),
    ((1, 2, 0), 0, None, "a\x07", Answer(2, "number out of range")),
    ((1, 0, 16), 3, ONE_ENCRYPTED, KEY, Answer(2, "number out of range")),
    (ONE_KEPT, 4, None, "a\x07", Answer(2, "number out of range")),
    (ONE_KEPT, 255, ONE_ENCRYPTED, KEY, Answer(2, "number out of range")),
    (ONE_KEPT, 3, None, "a\x07", Answer(41, "passphrase byte 2 not printable", first=2)),
    (ONE_KEPT, 3, None, KEY, Answer(42, "secret of 0 bytes")),
    (ONE_KEPT, 0, SECRET[1:], KEY, Answer(42, "secret of 15 bytes", first=15)),
    (ONE_KEPT, 0, bytes(130), KEY, Answer(42, "secret of 130 bytes", first=130)),
]


def listed(names: str) -> str:
    """Returns the line of a quorum with the secret."""
    return f"{names} {SECRET.hex()}\n"


def told(names: str) -> str:
    """Returns the line of a quorum with the fingerprint of this secret."""
    return compared(names, "df41d8fe")


def compared(names: str, what: str) -> str:
    """Returns the line of a quorum that says whether its secret has the expected fingerprint."""
    return f"{names} {what}\n"


# The quorums of FIVE, and those of FOUR.
OF_FIVE = ["0.0+0.1+1.0", "0.0+0.1+2.0", "0.0+0.2+1.0", "0.0+0.2+2.0", "0.1+0.2+1.0", "0.1+0.2+2.0", "1.0+2.0"]
OF_FOUR = ["0.0+0.1+1.0", "0.0+0.1+2.0", "1.0+2.0"]
FIRST_PART = "".join(map(listed, OF_FIVE[:4])) + "more after 0.0+0.2+2.0\n"
LAST_PART = "".join(map(listed, OF_FIVE[4:])) + "end\n"
# After the room for the output come the answer, its number of mismatches, and the output. In a listing of the five, a line of a quorum of
# three has 45 bytes. The last line has 23 bytes, unless it is "end".
TWO_LISTED = "".join(map(listed, ["0.0+0.1+1.0", "0.0+0.1+2.0"])) + "more after 0.0+0.1+2.0\n"
ONE_LISTED = listed("0.0+0.1+1.0") + "more after 0.0+0.1+1.0\n"
AS_EXPECTED = "".join(compared(it, "as expected") for it in OF_FOUR) + "end\n"
OTHERS = "".join(compared(it, "other secret") for it in OF_FOUR) + "end\n"
DRILLED: List[Row] = [
    ([ONE], KEY, 0, None, 9, DIGITS, None, 41, done(1, 37), 0, listed("0.0") + "end\n"),
    ([TWO_0, TWO_2], KEY, 2, "", 9, DIGITS, None, 45, done(1, 41), 0, f"0.0+0.2 {TWO_SECRET.hex()}\nend\n"),
    ([TWO_0, TWO_2], KEY, 1, "", 9, DIGITS, None, 45, HIGH, 0, ""),
    ([TWO_0, TWO_2], "a\x07", 0, "0.1+", 0, DIGITS, None, 0, Answer(2, "number out of range"), 0, ""),
    ([TWO_0, TWO_2], "a\x07", 0, "0.1", 1, DIGITS, None, 0, Answer(41, "passphrase byte 2 not printable", first=2), 0, ""),
    ([TWO_0, TWO_2], KEY, 1, "0.1", 1, DIGITS, None, 0, HIGH, 0, ""),
    ([TWO_0, TWO_2], KEY, 2, "0.1", 1, DIGITS, None, 0, Answer(62, "cursor is no quorum"), 0, ""),
    (FIVE, KEY, 15, None, 4, DIGITS, None, 203, done(4, 180), 0, FIRST_PART),
    (FIVE, KEY, 15, None, 9, DIGITS, None, 247, done(4, 180), 0, FIRST_PART),
    (FIVE, KEY, 15, "0.0+0.2+2.0", 9, DIGITS, None, 135, done(3, 131), 0, LAST_PART),
    (FIVE, KEY, 15, "0.1+0.2+2.0", 9, DIGITS, None, 45, done(1, 41), 0, listed("1.0+2.0") + "end\n"),
    (FIVE, KEY, 15, "1.0+2.0", 1, DIGITS, None, 4, done(0, 0), 0, "end\n"),
    (FIVE, KEY, 0, None, 2, DIGITS, None, 150, done(2, 90), 0, TWO_LISTED),
    (FIVE, KEY, 0, "0.1+0.2+1.0", 1, DIGITS, None, 150, done(1, 45), 0, listed("0.1+0.2+2.0") + "more after 0.1+0.2+2.0\n"),
    (FIVE, KEY, 15, None, 7, DIGITS, None, 68, done(1, 45), 0, ONE_LISTED),
    (FIVE, KEY, 15, None, 7, DIGITS, None, 112, done(1, 45), 0, ONE_LISTED),
    (FIVE, KEY, 15, None, 7, DIGITS, None, 113, done(2, 90), 0, TWO_LISTED),
    (FIVE, KEY, 15, None, 7, DIGITS, None, 140, done(2, 90), 0, TWO_LISTED),
    ([UNEVEN_GROUP_0, UNEVEN_GROUP_1], None, 0, None, 9, FINGERPRINTS, None, 40, done(1, 34), 1, "0.0+1.0 digest mismatch of groups\nend\n"),
    (FOUR, KEY, 0, None, 1000, FINGERPRINTS, None, 66, done(3, 59), 0, "".join(map(told, OF_FOUR)) + "end\n"),
    (FOUR, KEY, 0, None, 1000, EXPECTED, "df41d8fe", 80, done(3, 68), 0, AS_EXPECTED),
    (FOUR, KEY, 0, None, 1000, EXPECTED, "DF41d8FE", 80, done(3, 68), 0, AS_EXPECTED),
    (FOUR, KEY, 0, None, 1000, EXPECTED, "df41d8ff", 80, done(3, 71), 3, OTHERS),
    (FOUR, "a\x07", 0, "0.1+", 9, EXPECTED, "df41d8f", ROOM, Answer(61, "bad cursor"), 0, ""),
    (FOUR, "a\x07", 0, "0.1", 9, EXPECTED, "df41d8f", ROOM, Answer(44, "bad fingerprint"), 0, ""),
    (FOUR, None, 0, None, 9, EXPECTED, "df41d8fe00", ROOM, Answer(44, "bad fingerprint"), 0, ""),
    (FOUR, "a\x07", 0, "0.1", 9, EXPECTED, "df41d8fe", ROOM, Answer(41, "passphrase byte 2 not printable", first=2), 0, ""),
    (FOUR, None, 0, "0.1", 9, EXPECTED, "df41d8fe", ROOM, Answer(62, "cursor is no quorum"), 0, ""),
    # Other forms don't use the fingerprint.
    (FOUR, None, 0, "0.1", 9, FINGERPRINTS, "df41d8f", ROOM, Answer(62, "cursor is no quorum"), 0, ""),
    (FOUR, None, 0, "0.1", 9, DIGITS, "df41d8f", ROOM, Answer(62, "cursor is no quorum"), 0, ""),
    (FIVE, None, 15, "0.0+0.1+2.0+3.0", 1, DIGITS, None, ROOM, Answer(62, "cursor is no quorum"), 0, ""),
    (FIVE, None, 15, None, 1, 2**32 - 1, None, ROOM, Answer(2, "number out of range"), 0, ""),
    (FIVE, "a\x07", 15, "0.1+", 0, FINGERPRINTS, None, ROOM, Answer(2, "number out of range"), 0, ""),
    # Limit and form, the cursor, the fingerprint, the passphrase, the exponent, and then whether the cursor names a quorum.
    ([TWO_2, TWO_0], "a\x07", 1, "0.1+", 0, EXPECTED, None, 45, Answer(2, "number out of range"), 0, ""),
    ([TWO_2, TWO_0], "a\x07", 1, "0.1+", 1, EXPECTED, None, 45, Answer(61, "bad cursor"), 0, ""),
    ([TWO_2, TWO_0], "a\x07", 1, "0.1", 1, EXPECTED, None, 45, Answer(44, "bad fingerprint"), 0, ""),
    ([TWO_2, TWO_0], "a\x07", 1, "0.1", 1, DIGITS, None, 45, Answer(41, "passphrase byte 2 not printable", first=2), 0, ""),
    ([TWO_2, TWO_0], None, 1, "0.1", 1, DIGITS, None, 0, HIGH, 0, ""),
    ([TWO_2, TWO_0], None, 2, "0.1", 1, DIGITS, None, 0, Answer(62, "cursor is no quorum"), 0, ""),
    ([UNEVEN_0, UNEVEN_1], None, 0, None, 1, DIGITS, None, 39, done(1, 35), 1, "0.0+0.1 digest mismatch in group 0\nend\n"),
    ([UNEVEN_GROUP_0, UNEVEN_GROUP_1], "", 0, "", 1, DIGITS, None, ROOM, done(1, 34), 1, "0.0+1.0 digest mismatch of groups\nend\n"),
    (FIVE, KEY, 15, "0.0+0.2+2.0", 9, FINGERPRINTS, None, 65, done(3, 59), 0, told("0.1+0.2+1.0") + told("0.1+0.2+2.0") + told("1.0+2.0") + "end\n"),
    (FIVE, KEY, 15, "0.0+0.2+2.0", 9, FINGERPRINTS, None, 64, done(1, 21), 0, told("0.1+0.2+1.0") + "more after 0.1+0.2+1.0\n"),
    (
        FIVE, KEY, 15, "0.0+0.2+2.0", 9, EXPECTED, "DF41d8fe", 72, done(3, 68), 0,
        compared("0.1+0.2+1.0", "as expected") + compared("0.1+0.2+2.0", "as expected") + compared("1.0+2.0", "as expected") + "end\n",
    ),
    (FIVE, KEY, 15, "0.1+0.2+1.0", 1, EXPECTED, "00000000", 48, done(1, 25), 1, compared("0.1+0.2+2.0", "other secret") + "more after 0.1+0.2+2.0\n"),
    ([UNEVEN_0, UNEVEN_1], None, 0, None, 1, EXPECTED, "00000000", 39, done(1, 35), 1, "0.0+0.1 digest mismatch in group 0\nend\n"),
    ([], "a\x07", 0, "0.1+", 1, EXPECTED, "0", ROOM, Answer(61, "bad cursor"), 0, ""),
    ([], "a\x07", 0, "0.1", 1, EXPECTED, "0", ROOM, Answer(44, "bad fingerprint"), 0, ""),
    ([], "a\x07", 0, None, 1, EXPECTED, None, ROOM, Answer(44, "bad fingerprint"), 0, ""),
    ([], "a\x07", 0, "0.1", 1, FINGERPRINTS, "0", ROOM, Answer(41, "passphrase byte 2 not printable", first=2), 0, ""),
    ([UNEVEN_0, UNEVEN_1], None, 0, None, 1, FINGERPRINTS, None, 39, done(1, 35), 1, "0.0+0.1 digest mismatch in group 0\nend\n"),
    (FIVE, KEY, 15, None, 9, FINGERPRINTS, None, 43, Answer(1, "buffer too short: 44 bytes needed", first=44), 0, ""),
    ([], "a\x07", 0, "0.1+", 1, 3, None, ROOM, Answer(2, "number out of range"), 0, ""),
    ([], "a\x07", 0, "0.1+", 0, 2**32 - 1, None, ROOM, Answer(2, "number out of range"), 0, ""),
    ([], "a\x07", 0, "0.1+", 1, FINGERPRINTS, None, ROOM, Answer(61, "bad cursor"), 0, ""),
    (FIVE, KEY, 15, None, 9, DIGITS, None, 67, Answer(1, "buffer too short: 68 bytes needed", first=68), 0, ""),
    (FIVE, KEY, 15, "0.0+0.2+2.0", 9, DIGITS, None, 0, Answer(1, "buffer too short: 68 bytes needed", first=68), 0, ""),
    (FIVE, KEY, 15, "1.0+2.0", 9, DIGITS, None, 3, Answer(1, "buffer too short: 4 bytes needed", first=4), 0, ""),
    ([UNEVEN_0, UNEVEN_1], None, 0, None, 9, DIGITS, None, 38, Answer(1, "buffer too short: 39 bytes needed", first=39), 0, ""),
    ([ONE], KEY, 0, None, 9, DIGITS, None, 40, Answer(1, "buffer too short: 41 bytes needed", first=41), 0, ""),
    ([], "a\x07", 0, "0.1+", 0, DIGITS, None, ROOM, Answer(2, "number out of range"), 0, ""),
    ([], "a\x07", 0, "0.1+", 1, DIGITS, None, ROOM, Answer(61, "bad cursor"), 0, ""),
    ([], "a\x07", 0, "0.1", 1, DIGITS, None, ROOM, Answer(41, "passphrase byte 2 not printable", first=2), 0, ""),
    ([], None, 0, "0.1", 1, DIGITS, None, ROOM, Answer(29, "no shares"), 0, ""),
    ([TWO_2], None, 0, "0.1", 1, DIGITS, None, ROOM, Answer(30, "incomplete: 0 of 1 groups", second=1), 0, ""),
    ([FIVE_3], None, 0, None, 1, DIGITS, None, ROOM, Answer(30, "incomplete: 1 of 2 groups", first=1, second=2), 0, ""),
    (FIVE, None, 15, "0.1", 1, DIGITS, None, ROOM, Answer(62, "cursor is no quorum"), 0, ""),
]

# In the answers, first is the number of complete groups, and second is the group threshold.
STATUSES: List[Row] = [
    ([ONE], done(1, 1), "groups 1 of 1\ngroup 0 members 1 of 1 0.0\n"),
    ([TWO_2], done(0, 1), "groups 0 of 1\ngroup 0 members 1 of 2 0.2\n"),
    ([FIVE_0], done(0, 2), "groups 0 of 2\ngroup 0 members 1 of 2 0.0\n"),
    ([FIVE_4, FIVE_2, "", FIVE_0, FIVE_2], done(2, 2), "groups 2 of 2\ngroup 0 members 2 of 2 0.0+0.2\ngroup 2 members 1 of 1 2.0\n"),
    ([FIVE_3, FIVE_0, FIVE_0], done(1, 2), "groups 1 of 2\ngroup 0 members 1 of 2 0.0\ngroup 1 members 1 of 1 1.0\n"),
    ([FIVE_2, FIVE_1, FIVE_0], done(1, 2), "groups 1 of 2\ngroup 0 members 3 of 2 0.0+0.1+0.2\n"),
    ([FIVE_0, FIVE_3, FIVE_0], done(1, 2), "groups 1 of 2\ngroup 0 members 1 of 2 0.0\ngroup 1 members 1 of 1 1.0\n"),
    (FIVE, done(3, 2), "groups 3 of 2\ngroup 0 members 3 of 2 0.0+0.1+0.2\ngroup 1 members 1 of 1 1.0\ngroup 2 members 1 of 1 2.0\n"),
]

# The mnemonics that are there, and the one that is judged. After the output come the fields of the judgement.
OF_ONE, OF_FIVE_0, OF_FIVE_3, OF_FIVE_4 = (7945, 0, 0, 0, 1, 1, 0, 1), (1, 0, 0, 0, 2, 3, 0, 2), (1, 0, 0, 1, 2, 3, 0, 1), (1, 0, 0, 2, 2, 3, 0, 1)
OF_TWO_0 = (25653, 0, 2, 0, 1, 1, 0, 2)
HALF = "groups 0 of 2\ngroup 0 members 1 of 2 0.0\n"
JUDGED: List[Row] = [
    ([], ONE, done(1, 1), "groups 1 of 1\ngroup 0 members 1 of 1 0.0\n", (*OF_ONE, 0)),
    ([], FIVE_0, done(0, 2), HALF, (*OF_FIVE_0, 0)),
    ([FIVE_0], FIVE_0, done(0, 2), HALF, (*OF_FIVE_0, 1)),
    ([FIVE_0], FIVE_3, done(1, 2), "groups 1 of 2\ngroup 0 members 1 of 2 0.0\ngroup 1 members 1 of 1 1.0\n", (*OF_FIVE_3, 0)),
    (FOUR, FIVE_3, done(3, 2), "groups 3 of 2\ngroup 0 members 2 of 2 0.0+0.1\ngroup 1 members 1 of 1 1.0\ngroup 2 members 1 of 1 2.0\n", (*OF_FIVE_3, 1)),
    (["# a note", FIVE_0, "", FIVE_3, FIVE_0], "  " + FIVE_4.upper().replace(" ", "\t") + "\r", done(2, 2),
     "groups 2 of 2\ngroup 0 members 1 of 2 0.0\ngroup 1 members 1 of 1 1.0\ngroup 2 members 1 of 1 2.0\n", (*OF_FIVE_4, 0)),
    # Lines of other backups don't matter, even if they can't be of one.
    ([ONE], FIVE_0, done(0, 2), HALF, (*OF_FIVE_0, 0)),
    ([ONE, FIVE_0, TWO_2], FIVE_0, done(0, 2), HALF, (*OF_FIVE_0, 1)),
    ([*FIVE, TWO_2], ONE, done(1, 1), "groups 1 of 1\ngroup 0 members 1 of 1 0.0\n", (*OF_ONE, 0)),
    ([ONE, TWO_2], TWO_0, done(1, 1), "groups 1 of 1\ngroup 0 members 2 of 2 0.0+0.2\n", (*OF_TWO_0, 0)),
    ([FIVE_0, FORGED_0], ONE, done(1, 1), "groups 1 of 1\ngroup 0 members 1 of 1 0.0\n", (*OF_ONE, 0)),
    # The mnemonic is judged by itself, before the others.
    ([FIVE_0], FIVE_0.ljust(1024), done(0, 2), HALF, (*OF_FIVE_0, 1)),
    ([FIVE_0], FIVE_0.ljust(1025), Answer(71, "line too long"), "", None),
    (["academia"], "academia".ljust(1025), Answer(71, "line too long"), "", None),
    (["academia", "#" * 1025], ONE_WRONG, Answer(13, "bad checksum"), "", None),
    ([FIVE_0], "academic academia", Answer(11, "unknown word 2", first=2), "", None),
    ([FIVE_0], BAD_PADDING, Answer(14, "bad padding"), "", None),
    ([FIVE_0], BAD_GROUP_THRESHOLD, Answer(15, "group threshold above group count"), "", None),
    ([FIVE_0], FIVE_0 + "\n", Answer(11, "unknown word 20", first=20), "", None),
    ([FIVE_0], "# a note", Answer(11, "unknown word 1", first=1), "", None),
    (None, None, Answer(12, "0 words make no share"), "", None),
    # Then the lines.
    ([ONE, "academic x"], FIVE_0, Answer(11, "unknown word 2", line=2, first=2), "", None),
    ([ONE + " academic"], FIVE_0, Answer(12, "21 words make no share", line=1, first=21), "", None),
    ([FIVE_3, ONE_WRONG, "academia"], FIVE_0, Answer(13, "bad checksum", line=2), "", None),
    ([BAD_PADDING], FIVE_0, Answer(14, "bad padding", line=1), "", None),
    ([FIVE_3, BAD_GROUP_THRESHOLD], FIVE_0, Answer(15, "group threshold above group count", line=2), "", None),
    ([ONE, "", "#" * 1025], FIVE_0, Answer(71, "line too long", line=3), "", None),
    ([ONE, FIVE_0, FORGED_0], FIVE_3, Answer(28, "conflicting share 0.0", line=3), "", None),
    ([FIVE_0, FORGED_0], FORGED_0, Answer(28, "conflicting share 0.0", line=2), "", None),
    # Then the mnemonic beside the lines.
    ([ONE, FIVE_0], FORGED_0, Answer(28, "conflicting share 0.0"), "", None),
    ([FORGED_0], FIVE_0, Answer(28, "conflicting share 0.0"), "", None),
    ([UNEVEN_0], SLOW_UNEVEN_1, Answer(23, "other exponent"), "", None),
    ([UNEVEN_0], UNEVEN_GROUP_1, Answer(24, "other group threshold"), "", None),
]


def judged_vectors() -> Iterator[Row]:
    """Yields the vectors in which a mnemonic can't join those before it: as the one that is judged, and as one of the lines."""
    for case in json.loads((driver.ROOT / "vectors" / "vectors.json").read_text())["cases"]:
        refused = case["right"].get("refused", {"code": 0})
        if not 22 <= refused["code"] <= 28:
            continue
        lines, at = case["given"]["mnemonics"], refused["line"]
        first, second, *_ = [*map(int, re.findall(r"\d+", refused["text"])), 0, 0]
        yield lines[: at - 1], lines[at - 1], Answer(refused["code"], refused["text"], first=first, second=second), "", None
        yield lines, lines[0], Answer(refused["code"], refused["text"], line=at, first=first, second=second), "", None


# In the answers, first is the number of quorums.
QUORUMS: List[Row] = [
    ([ONE], done(1, 0)),
    ([TWO_2], done(0, 0)),
    ([FIVE_0, FIVE_3, FIVE_0], done(0, 0)),
    (FIVE, done(7, 0)),
    ([FIVE_0, FIVE_1, FIVE_2, FIVE_3], done(3, 0)),
    (FOUR, done(3, 0)),
    ([FIVE_4, FIVE_0, FIVE_3], done(1, 0)),
]

# For the code 66, first is 256 * group + member, and second has four counts.
SPLIT_ANEW: List[Row] = [
    ("1of1", [OLD_2, OLD_0], bytes.fromhex("1234"), done(1, 0), [NEW_ONE]),
    (FIVE_PLAN, [OLD_0, OLD_2], FIVE_RANDOM, done(5, 0), NEW_FIVE),
    (FIVE_PLAN, [OLD_2, "# a note", OLD_0, OLD_2], FIVE_RANDOM, done(5, 0), NEW_FIVE),
    ("1of1", [HIGH_OLD_0, HIGH_OLD_2], bytes.fromhex("1234"), done(1, 0), [HIGH_NEW_ONE]),
    (None, ["academia"], None, Answer(31, "bad plan"), []),
    ("1of2", ["academia"], None, Answer(34, "one of many in plan group 0"), []),
    ("1of1", [OLD_0, OLD_2], bytes.fromhex("236a00"), Answer(43, "random bytes: 2 needed", first=2), []),
    ("2/2of3", ["academia"], None, Answer(32, "bad number of groups in plan"), []),
    ("2/2of2,3of2", ["academia"], None, Answer(33, "bad number of members in plan group 1", first=1), []),
    (FIVE_PLAN, [OLD_0], None, Answer(30, "incomplete: 0 of 1 groups", second=1), []),
    (FIVE_PLAN, [OLD_0, OLD_FORGED_2], None, Answer(51, "digest mismatch in group 0"), []),
    (FIVE_PLAN, [ONE], None, Answer(67, "backup isn't extendable"), []),
    (FIVE_PLAN, [OLD_0, OLD_2], None, Answer(43, "random bytes: 26 needed", first=26), []),
    (FIVE_PLAN, [OLD_0, OLD_2], bytes(27), Answer(43, "random bytes: 26 needed", first=26), []),
    ("1of1", [OLD_0, OLD_2], bytes.fromhex("236a"), Answer(68, "same identifier"), []),
    ("1of1", [OLD_0, OLD_2], bytes.fromhex("a36a"), Answer(68, "same identifier"), []),
]

# The mnemonics are those of the backups that are split anew.
FROM_ENCRYPTED: List[Row] = [
    ("1of1", OLD_KEPT, OLD_ENCRYPTED, bytes.fromhex("1234"), done(1, 0), [NEW_ONE]),
    (FIVE_PLAN, OLD_KEPT, OLD_ENCRYPTED, FIVE_RANDOM, done(5, 0), NEW_FIVE),
    ("1of1", (9066, 1, 15), OLD_ENCRYPTED, bytes.fromhex("1234"), done(1, 0), [HIGH_NEW_ONE]),
    # The old identifier decides nothing else.
    ("1of1", (32767, 1, 0), OLD_ENCRYPTED, bytes.fromhex("1234"), done(1, 0), [NEW_ONE]),
    (None, (32768, 0, 0), None, None, Answer(2, "number out of range"), []),
    ("1of1", (9066, 2, 0), OLD_ENCRYPTED, bytes.fromhex("1234"), Answer(2, "number out of range"), []),
    ("1of1", (9066, 1, 16), OLD_ENCRYPTED, bytes.fromhex("1234"), Answer(2, "number out of range"), []),
    (None, ONE_KEPT, None, None, Answer(31, "bad plan"), []),
    ("2/2of3", ONE_KEPT, None, None, Answer(32, "bad number of groups in plan"), []),
    ("17of17", ONE_KEPT, None, None, Answer(33, "bad number of members in plan group 0"), []),
    ("1of2", ONE_KEPT, None, None, Answer(34, "one of many in plan group 0"), []),
    ("1of1", ONE_KEPT, None, None, Answer(42, "secret of 0 bytes"), []),
    ("1of1", OLD_KEPT, SECRET[1:], bytes.fromhex("236a"), Answer(42, "secret of 15 bytes", first=15), []),
    ("1of1", OLD_KEPT, bytes(130), None, Answer(42, "secret of 130 bytes", first=130), []),
    ("1of1", ONE_KEPT, ONE_ENCRYPTED, None, Answer(67, "backup isn't extendable"), []),
    ("1of1", ONE_KEPT, ONE_ENCRYPTED, ONE_RANDOM, Answer(67, "backup isn't extendable"), []),
    (FIVE_PLAN, OLD_KEPT, OLD_ENCRYPTED, None, Answer(43, "random bytes: 26 needed", first=26), []),
    (FIVE_PLAN, OLD_KEPT, OLD_ENCRYPTED, bytes(27), Answer(43, "random bytes: 26 needed", first=26), []),
    ("1of1", OLD_KEPT, OLD_ENCRYPTED, bytes.fromhex("236a00"), Answer(43, "random bytes: 2 needed", first=2), []),
    ("1of1", OLD_KEPT, OLD_ENCRYPTED, bytes.fromhex("236a"), Answer(68, "same identifier"), []),
    ("1of1", OLD_KEPT, OLD_ENCRYPTED, bytes.fromhex("a36a"), Answer(68, "same identifier"), []),
]

REISSUED: List[Row] = [
    (FIVE_PLAN, "0.1", [FIVE_0, FIVE_2], DONE, [FIVE_1]),
    (FIVE_PLAN, "0.0+0.1", [FIVE_2, FIVE_3, FIVE_4], DONE, [FIVE_0, FIVE_1]),
    (FIVE_PLAN, "2.0", [FIVE_0, FIVE_1, FIVE_3], DONE, [FIVE_4]),
    (FIVE_PLAN, "0.0", [FIVE_0], DONE, [FIVE_0]),
    (FIVE_LARGER_PLAN, "0.3", [FIVE_0, FIVE_1], DONE, [FIVE_0_3]),
    (FIVE_PLAN, "2.0", [FIVE_1, FIVE_0, "# a note", FIVE_3], DONE, [FIVE_4]),
    (FIVE_PLAN, "0.0+0.2", [FIVE_0, FIVE_1, FIVE_0], DONE, [FIVE_0, FIVE_2]),
    (FIVE_PLAN, "0.0+0.2+2.0", [FIVE_0, FIVE_3], Answer(66, "cannot tell 0.2: 1 of 2 members, 1 of 2 other groups", first=2, second=0x01020102), []),
    (FIVE_PLAN, "3.1", ["academia"], Answer(64, "name 3.1 not in plan", first=3, second=1), []),
    ("2of3", "1.0", ["academia"], Answer(64, "name 1.0 not in plan", first=1), []),
    ("2/2of3", "0.1+0.0", ["academia"], Answer(32, "bad number of groups in plan"), []),
    ("2/2of2,3of2", "0.1+0.0", ["academia"], Answer(33, "bad number of members in plan group 1", first=1), []),
    ("2/1of3,5of2", "0.1+0.0", ["academia"], Answer(34, "one of many in plan group 0"), []),
    (FIVE_PLAN, "0.1", [FIVE_3, FIVE_4], Answer(66, "cannot tell 0.1: 0 of 2 members, 2 of 2 other groups", first=1, second=0x00020202), []),
    (FIVE_PLAN, "0.1", [FIVE_0, FIVE_3], Answer(66, "cannot tell 0.1: 1 of 2 members, 1 of 2 other groups", first=1, second=0x01020102), []),
    (FIVE_PLAN, "2.0", [FIVE_0, FIVE_1], Answer(66, "cannot tell 2.0: 0 of 1 members, 1 of 2 other groups", first=512, second=0x00010102), []),
    (FIVE_PLAN, "0.3", [FIVE_0, FIVE_1], Answer(64, "name 0.3 not in plan", second=3), []),
    ("2/3of3,1of1,1of1", "0.2", [FIVE_0, FIVE_1], Answer(65, "other plan"), []),
    ("1/2of3,1of1,1of1", "2.0", [FIVE_0, FIVE_3], Answer(65, "other plan"), []),
    ("2/2of3,1of1", "0.1", [FIVE_0, FIVE_2], Answer(65, "other plan"), []),
    ("2/2of2,1of1,1of1", "0.0", [FIVE_1, FIVE_2], Answer(65, "other plan"), []),
    (FIVE_PLAN, "0.1+0.0", [FIVE_0, FIVE_1], Answer(63, "bad list of names"), []),
    (FIVE_PLAN, None, [ONE_WRONG], Answer(63, "bad list of names"), []),
    (FIVE_PLAN, "0.0", [FIVE_0, ONE_WRONG], Answer(13, "bad checksum", line=2), []),
    (None, "0.1+0.0", [ONE_WRONG], Answer(31, "bad plan"), []),
    (FIVE_PLAN, "3.0", [ONE_WRONG], Answer(64, "name 3.0 not in plan", first=3), []),
    (FIVE_PLAN, "0.1", [FORGED_0, FORGED_2], Answer(51, "digest mismatch in group 0"), []),
    (FIVE_PLAN, "2.0", [FORGED_0, FORGED_2, FIVE_3], Answer(51, "digest mismatch in group 0"), []),
    (FIVE_PLAN, "2.0", [FIVE_0, FIVE_1, FORGED_3], Answer(51, "digest mismatch of groups", first=OF_GROUPS), []),
]

# Python's hmac computed these fingerprints.
FINGERPRINTED: List[Row] = [
    (SECRET, DONE, "df41d8fe"),
    (TWO_SECRET, DONE, "5f5702dc"),
    (SECRET + b"\xff\xff", DONE, "26fdf302"),
    (b"\xff" * 18, DONE, "932e90a2"),
    (bytes(128), DONE, "08fe16b5"),
    *((b"\x09" * it, Answer(42, f"secret of {it} bytes", first=it), "") for it in [14, 15, 17, 127, 129, 130]),
    (SECRET + b"\n", Answer(42, "secret of 17 bytes", first=17), ""),
    ("", Answer(42, "secret of 0 bytes"), ""),
    (None, Answer(42, "secret of 0 bytes"), ""),
]

# The words are those of the standard's list.
WORDS: List[Row] = [
    ("em", DONE, "email\nemerald\nemission\nemperor\nemphasis\nemployer\nempty\n"),
    ("EMer", DONE, "emerald\n"),
    ("zero", DONE, "zero\n"),
    ("Z", DONE, "zero\n"),
    ("emerald", DONE, "emerald\n"),
    ("academic", DONE, "academic\n"),
    ("y", DONE, "year\nyelp\nyield\nyoga\n"),
    ("wr", DONE, "wrap\nwrist\nwriting\nwrote\n"),
    *((it, DONE, "") for it in ["x", "zz", " ", "academic ", "academical", "acad\n", "a1", "@", "[", "\xc4"]),
    ("zeros", DONE, ""),
    ("zero ", DONE, ""),
    ("\xc3\xa9", DONE, ""),
    ("em\n", DONE, ""),
    ("", Answer(1, "buffer too short: 7231 bytes needed", first=7231), ""),
    (None, Answer(1, "buffer too short: 7231 bytes needed", first=7231), ""),
]

REPAIRED: List[Row] = [
    (ONE, done(1, 0), ONE + "\n"),
    (" ".join(ONE.split()[:17]) + " ? ? ?", done(1, 0), ONE + "\n"),
    ("DUCK? enla? acad? acad? agen? resu? leng? solu? frid? kidn? coal? piec? deal? husb? erod? duke? ajar? crit? deci? keyb?", done(1, 0), ONE + "\n"),
    (
        "duckling ? academic academic agency result length solution fridge kidney coal ? deal husband erode duke ajar critical decision keyboard",
        done(1, 0), ONE + "\n",
    ),
    (
        "Duckling enlarge academic academic agency result le? SO? fridge kidney coal piece deal husband erode duke ajar critical decision keyboard",
        done(1, 0), ONE + "\n",
    ),
    ("? ? ? academic agency " + REST + "keyboard", done(2, 0), ONE + "\ntherapy heat device academic agency " + REST + "keyboard\n"),
    ("duckling enlarge academic academic agency " + REST + "zz?", Answer(11, "unknown word 20", first=20), ""),
    (ONE + "\n", Answer(11, "unknown word 20", first=20), ""),
    ("duckling ?", Answer(12, "2 words make no share", first=2), ""),
    ("duckling enlarge zz?", Answer(11, "unknown word 3", first=3), ""),
    ("duckling enlarge aca?", Answer(12, "3 words make no share", first=3), ""),
    (" ".join(ONE.split()[:16]) + " ? ? ? ?", Answer(19, "4 unreadable words: at most 3", first=4), ""),
    (
        "? enlarge ? academic ? result ? solution fridge kidney coal piece deal husband erode duke ajar critical decision keyboard",
        Answer(19, "4 unreadable words: at most 3", first=4), "",
    ),
    (
        "duckling enlarge academic academic ? result solution length fridge kidney coal piece deal husband erode duke ajar critical decision keyboard",
        Answer(17, "no mnemonic has these words"), "",
    ),
    ("duckling enlarge academic academic agency " + REST + "kidney", Answer(18, "bad checksum: if one word is wrong, it is word 20", first=20), ""),
    (
        "duckling enlarge academic academic agency result lend solution fridge kidney coal piece deal husband erode duke ajar critical decision keyboard",
        Answer(18, "bad checksum: if one word is wrong, it is word 7", first=7), "",
    ),
    (ONE.replace("length", "ze?"), Answer(18, "bad checksum: if one word is wrong, it is word 7", first=7), ""),
    (
        "duckling enlarge academic academic agency result solution length fridge kidney coal piece deal husband erode duke ajar critical decision keyboard",
        Answer(13, "bad checksum"), "",
    ),
    (BAD_PADDING, Answer(14, "bad padding"), ""),
    (BAD_GROUP_THRESHOLD, Answer(15, "group threshold above group count"), ""),
    (None, Answer(12, "0 words make no share"), ""),
]

# The code and both details of an answer, and its text. Where no text tells what the answer has, it is unknown.
TOLD: List[Row] = [
    (1, 715, 0, "buffer too short: 715 bytes needed"),
    (3, 15, 0, "exponent 15 above the maximum"),
    (12, 19, 0, "19 words make no share"),
    (14, 0, 0, "bad padding"),
    (15, 0, 0, "group threshold above group count"),
    (18, 110, 0, "bad checksum: if one word is wrong, it is word 110"),
    (18, 256, 0, "unknown answer"),
    (22, 0, 0, "other extendable flag"),
    (23, 0, 0, "other exponent"),
    (24, 0, 0, "other group threshold"),
    (25, 0, 0, "other group count"),
    (26, 0, 0, "other length"),
    (27, 15, 0, "other member threshold in group 15"),
    (27, 256, 0, "unknown answer"),
    (28, 3, 12, "conflicting share 3.12"),
    (28, 3, 256, "unknown answer"),
    (33, 14, 0, "bad number of members in plan group 14"),
    (34, 13, 0, "one of many in plan group 13"),
    (41, 5, 0, "passphrase byte 5 not printable"),
    (51, 15, 0, "digest mismatch in group 15"),
    (64, 12, 3, "name 12.3 not in plan"),
    (66, 0x0F0E, 0x010D020C, "cannot tell 15.14: 1 of 13 members, 2 of 12 other groups"),
    (66, 0x10000, 0, "unknown answer"),
    (71, 0, 0, "line too long"),
    *((it, 0, 0, "unknown answer") for it in [5, 16, 69, 72, 73]),
]


Output = Union[str, bytes, List[str]]


@dataclass(frozen=True)
class Example:
    """A call, and what it gives. Without a room, the output has just the room that it needs, or plenty if the call is refused."""

    call: str
    arguments: Sequence[Any]
    answer: Answer
    output: bytes = b""
    room: Optional[int] = None
    mismatches: int = 0
    fields: Sequence[int] = ()


def joined(given: Any) -> Any:
    """Returns lines as one text, with a line feed after each, and anything else as it is. A text has one byte for each character."""
    if isinstance(given, list):
        return joined("".join(line + "\n" for line in given)) if given else None
    return given.encode("latin-1") if isinstance(given, str) else given


def example(call: str, arguments: Sequence[Any], answer: Answer, output: Output = "", **more: Any) -> Example:
    return Example(call, [joined(it) for it in arguments], answer, joined(output) or b"", **more)


def examples() -> Iterator[Example]:
    for text, answer, value, share in PARSED:
        yield example("parse", [text], answer, bytes.fromhex(value), fields=share or ())
    for plan, size, answer in NUMBERS:
        yield example("random_needed", [plan, size], answer, room=0)
    for plan, secret, key, exponent, drawn, answer, lines in CREATED:
        yield example("create", [plan, secret, key, exponent, 0, drawn], answer, lines)
    for lines, key, most, expected, answer, output in RECOVERED:
        yield example("recover", [lines, key, most, expected], answer, output)
    for lines, answer, output, kept in ENCRYPTED:
        yield example("encrypted", [lines], answer, output, fields=kept or ())
    for kept, value, key, expected, answer, output in DECRYPTED:
        yield example("decrypt", [*kept, value, key, expected], answer, output)
    for kept, value, key, texts in UNDONE:
        for number, text in zip((3, 2, 1, 0), map(bytes.fromhex, texts)):
            yield example("decrypt_round", [*kept, number, value, key], DONE, text)
            value = text
    for kept, number, value, key, answer in ROUNDS:
        yield example("decrypt_round", [*kept, number, value, key], answer)
    for lines, key, most, after, limit, form, expected, room, answer, mismatches, output in DRILLED:
        yield example("drill", [lines, key, most, after, limit, form, expected], answer, output, room=room, mismatches=mismatches)
    for lines, line, answer, output, fields in [*JUDGED, *judged_vectors()]:
        yield example("judge", [lines, line], answer, output, fields=fields or ())
    for lines, answer in [*QUORUMS, *REFUSED_LINES]:
        yield example("quorums", [lines], answer, room=0)
    for lines, answer in REFUSED_LINES:
        yield from (example(call, [lines], answer) for call in ("encrypted", "status"))
        yield example("recover", [lines, KEY, 0, None], answer)
        yield example("drill", [lines, KEY, 0, None, 9, DIGITS, None], answer)
        yield example("reissue", [FIVE_PLAN, "0.1", lines], answer)
        yield example("resplit", [FIVE_PLAN, lines, None], answer)
    for plan, names, lines, answer, output in REISSUED:
        yield example("reissue", [plan, names, lines], answer, output)
    for plan, lines, drawn, answer, output in SPLIT_ANEW:
        yield example("resplit", [plan, lines, drawn], answer, output)
    for plan, kept, value, drawn, answer, output in FROM_ENCRYPTED:
        yield example("create_from_encrypted", [plan, *kept, value, drawn], answer, output)
    for call, table in [("status", STATUSES), ("fingerprint", FINGERPRINTED), ("words", WORDS), ("repair", REPAIRED)]:
        yield from (example(call, [given], answer, output) for given, answer, output in table)
    yield example("version", [], DONE, shamir_h.VERSION)
    for code, first, second, text in TOLD:
        yield example("text", [code, 0, 3, first, second, 0], DONE, text)


def wanted(answer: Answer, output: bytes = b"", mismatches: int = 0, fields: Sequence[int] = ()) -> str:
    """Returns the line that the driver writes. Fields that the call leaves as they are can be left out at the end."""
    numbers = [answer.code, mismatches, answer.line, answer.first, answer.second, len(output), *fields, *UNFILLED[len(fields) :], 0]
    return " ".join([*map(str, numbers), output.hex()])


def calls_of(it: Example) -> Iterator[driver.Made]:
    """Yields the calls of an example, and what is wanted."""
    room = it.room
    if room is None:
        room = len(it.output) if it.answer.code == 0 else ROOM
    yield driver.line(it.call, it.arguments, room or None), wanted(it.answer, it.output, it.mismatches, it.fields)
    if it.room is None and it.output:
        yield driver.line(it.call, it.arguments, room + 1), wanted(it.answer, it.output, it.mismatches, it.fields)
        short = wanted(Answer(TOO_SHORT, "", first=room), fields=it.fields)
        yield driver.line(it.call, it.arguments, room - 1), short
        yield driver.line(it.call, it.arguments, None), short
    if it.room is None and it.answer.code not in (0, TOO_SHORT):
        yield driver.line(it.call, it.arguments, None), wanted(it.answer)
    if it.call != "text":
        fields = [it.answer.code, it.mismatches, it.answer.line, it.answer.first, it.answer.second, 0]
        yield from calls_of(example("text", fields, DONE, it.answer.told))


def flags() -> Iterator[driver.Made]:
    """Yields new backups with and without the flag. A greater number is refused before anything else."""
    for flag in [0, 1]:
        [share] = plain.create(plain.parse_plan("1of1"), SECRET, KEY.encode(), 0, flag == 1, ONE_RANDOM)
        output = (plain.mnemonic(share) + "\n").encode()
        yield driver.line("create", ["1of1", SECRET, KEY, 0, flag, ONE_RANDOM], ROOM), wanted(done(1, 0), output)
    for flag in [2, 15, 255, 256, 257, 65536, 65537, 2**32 - 1]:
        for given in (["1of1", SECRET, KEY, 0, flag, ONE_RANDOM], [None, None, "a\x07", 15, flag, None]):
            yield driver.line("create", given, ROOM), wanted(Answer(2, "number out of range"))


def wiped() -> Iterator[driver.Made]:
    """Yields buffers of which every byte is cleared, and no byte before or after it."""
    yield driver.line("wipe", [None], None), wanted(DONE)
    for length in range(ROOM - 1):
        yield driver.line("wipe", [bytes([MARK]) * length], length), wanted(DONE, bytes(length))


def calls() -> List[driver.Made]:
    return [call for it in examples() for call in calls_of(it)] + [*flags(), *wiped()]
