/** A text: a string, which is encoded as UTF-8, or its bytes. */
export type Text = string | Uint8Array;

/** One text of lines, or an iterable of lines. A line of an iterable may end with a line feed. */
export type Lines = Text | Iterable<Text>;

/** The codes of an answer. After "first" and "second" stands what the `details` of such a refusal are; others are 0. */
export interface Codes {
  /** The call succeeded. */
  DONE: 0;
  /** The output buffer is too short; first: the number of bytes needed. */
  TOO_SHORT: 1;
  /** A number is out of range. */
  OUT_OF_RANGE: 2;
  /** The exponent of the mnemonics is above `maxExponent`; first: this exponent. */
  HIGH_EXPONENT: 3;
  /** No memory is left for the call. Only the library as plain C gives this. */
  NO_MEMORY: 4;
  /** A word isn't in the word list; first: which word of the line it is, from 1. */
  UNKNOWN_WORD: 11;
  /** A mnemonic can't have this number of words; first: the number of words. */
  WORD_COUNT: 12;
  /** The checksum is wrong. */
  BAD_CHECKSUM: 13;
  /** A padding bit isn't 0. */
  BAD_PADDING: 14;
  /** The group threshold is above the group count. */
  GROUP_THRESHOLD: 15;
  /** No mnemonic fits a line of marks. */
  NO_MNEMONIC: 17;
  /** The checksum is wrong; first: see `repair`. */
  WRONG_WORD: 18;
  /** More than three places of a line are open; first: how many are. */
  UNREADABLE_WORDS: 19;
  /** The identifier differs from that of earlier lines. */
  OTHER_IDENTIFIER: 21;
  /** The extendable flag differs from that of earlier lines. */
  OTHER_EXTENDABLE: 22;
  /** The iteration exponent differs from that of earlier lines. */
  OTHER_EXPONENT: 23;
  /** The group threshold differs from that of earlier lines. */
  OTHER_GROUP_THRESHOLD: 24;
  /** The group count differs from that of earlier lines. */
  OTHER_GROUP_COUNT: 25;
  /** The length of the value differs from that of earlier lines. */
  OTHER_LENGTH: 26;
  /** The group has another member threshold in earlier lines; first: the group. */
  OTHER_MEMBER_THRESHOLD: 27;
  /** This name has another value in an earlier line; first: the group, second: the member. */
  CONFLICTING_SHARE: 28;
  /** No line holds a mnemonic. */
  NO_SHARES: 29;
  /** Too few groups are complete; first: how many are, second: the group threshold. */
  INCOMPLETE: 30;
  /** The text isn't a plan. */
  BAD_PLAN: 31;
  /** The plan has more than 16 groups, or fewer than its group threshold. */
  PLAN_GROUPS: 32;
  /** A group has more than 16 members, or fewer than its threshold; first: the group. */
  PLAN_MEMBERS: 33;
  /** A group has several members and the member threshold 1; first: the group. */
  ONE_OF_MANY: 34;
  /** A byte of the passphrase isn't printable ASCII; first: which byte it is, from 1. */
  PASSPHRASE: 41;
  /** A secret can't have this number of bytes; first: the number of bytes. */
  SECRET_LENGTH: 42;
  /** The number of random bytes is wrong; first: the number of bytes needed. */
  RANDOM_LENGTH: 43;
  /** The expected fingerprint isn't eight hexadecimal digits. */
  BAD_FINGERPRINT: 44;
  /** A digest doesn't match; first: the group, or `OF_GROUPS` for the group shares. */
  DIGEST_MISMATCH: 51;
  /** The secret has another fingerprint than the expected one. */
  OTHER_SECRET: 52;
  /** The cursor isn't a list of names. */
  BAD_CURSOR: 61;
  /** The cursor doesn't name a quorum of these mnemonics. */
  NOT_A_QUORUM: 62;
  /** The text isn't a list of names. */
  BAD_NAMES: 63;
  /** A name isn't in the plan; first: the group, second: the member. */
  NOT_IN_PLAN: 64;
  /** A mnemonic can't belong to a backup of this plan. */
  OTHER_PLAN: 65;
  /** A mnemonic isn't determined; first: 256 * group + member, second: its bytes are the members at hand, the member threshold, the other complete groups and the group threshold. */
  UNDETERMINED: 66;
  /** The mnemonics don't have the extendable flag, so they can't be split anew. */
  NOT_EXTENDABLE: 67;
  /** The random bytes give the identifier that the mnemonics have. */
  SAME_IDENTIFIER: 68;
  /** A line has more than 1,024 bytes. */
  LINE_TOO_LONG: 71;
}

/** The fields of a mnemonic. Groups and members are numbered from 0. */
export interface ShareFields {
  /** The identifier of the backup, 0 to 32767. */
  id: number;
  /** The extendable flag. */
  extendable: boolean;
  /** The iteration exponent, 0 to 15. */
  exponent: number;
  /** The group, 0 to 15. */
  groupIndex: number;
  /** 1 to `groupCount`. */
  groupThreshold: number;
  /** 1 to 16. */
  groupCount: number;
  /** The member of the group, 0 to 15. */
  memberIndex: number;
  /** 1 to 16. */
  memberThreshold: number;
}

/** The fields of a mnemonic, and its value. */
export interface Share extends ShareFields {
  /** The value, 16 to 128 bytes. It is as secret as the mnemonic. */
  value: Uint8Array;
}

/**
 * The encrypted secret of a backup, and the parameters that decrypt it together with the passphrase. Whoever has it can test guesses
 * of the passphrase, and without a passphrase it is as secret as the secret itself.
 */
export interface EncryptedSecret {
  /** The identifier of the backup, 0 to 32767. */
  id: number;
  /** The extendable flag. */
  extendable: boolean;
  /** The iteration exponent, 0 to 15. */
  exponent: number;
  /** The bytes, as many as the secret has. */
  value: Uint8Array;
}

/** What an outcome is of, whatever it holds. */
interface OfQuorum {
  /** The names of its mnemonics, such as `0.0+0.2+1.0`. */
  names: string;
}

/** A quorum that recovers this secret. */
export interface SecretOutcome extends OfQuorum {
  /** The secret that it recovers. */
  secret: Uint8Array;
  fingerprint: null;
  expected: null;
  mismatch: null;
}

/** A quorum that recovers a secret with this fingerprint, in a drill that gives fingerprints. */
export interface FingerprintOutcome extends OfQuorum {
  secret: null;
  /** The fingerprint of the secret that it recovers. */
  fingerprint: string;
  expected: null;
  mismatch: null;
}

/** A quorum whose secret is compared, in a drill that compares fingerprints. */
export interface ComparedOutcome extends OfQuorum {
  secret: null;
  fingerprint: null;
  /** Whether the secret that it recovers has the expected fingerprint. */
  expected: boolean;
  mismatch: null;
}

/** A quorum whose digest doesn't match. */
export interface MismatchOutcome extends OfQuorum {
  secret: null;
  fingerprint: null;
  expected: null;
  /** The lowest group whose digest doesn't match, or `OF_GROUPS` for the digest of the group shares. */
  mismatch: number;
}

/** What one quorum of a drill recovers. Just one of `secret`, `fingerprint`, `expected` and `mismatch` isn't null, and says which it is. */
export type Outcome = SecretOutcome | FingerprintOutcome | ComparedOutcome | MismatchOutcome;

/** A group that has members among the mnemonics. */
export interface GroupStatus {
  /** Its number, 0 to 15. */
  group: number;
  /** Its member threshold, 1 to 16. */
  threshold: number;
  /** The names of these members, in ascending order. */
  names: string[];
}

/** How many members of each group are at hand. */
export interface Status {
  /** The number of complete groups. */
  complete: number;
  /** The group threshold. */
  required: number;
  /** Whether the mnemonics have a quorum. If they do, `recover` doesn't refuse them as incomplete. */
  enough: boolean;
  /** Each group that has members among the mnemonics, in ascending order. */
  groups: GroupStatus[];
  /** What the command status prints, without the last line feed. */
  text: string;
}

/** What a mnemonic is beside others. */
export interface Judgement {
  /** Its fields. */
  share: ShareFields;
  /** Whether its share is among the others already. */
  again: boolean;
  /** What its backup has with it. */
  status: Status;
}

/** The defaults are those of python-shamir-mnemonic, the reference implementation of the standard. */
export interface CreateOptions {
  /** An additional secret of printable ASCII, which a recovery needs too. If it is left out, there is none. */
  passphrase?: Text | undefined;
  /** The iteration exponent, 0 to 15. If it is left out, it is 1. Without a passphrase, it protects nothing. */
  exponent?: number | undefined;
  /**
   * Whether to set the extendable flag, which leaves the backup's identifier out of the encryption. If it is left out, the flag is set.
   * Give false if a wallet that has to read the backup may not know the flag.
   */
  extendable?: boolean | undefined;
  /** The random bytes, exactly as many as `randomNeeded` gives. If they are left out, `crypto.getRandomValues` gives them. */
  random?: Uint8Array | undefined;
}

export interface DecryptOptions {
  /** The passphrase of the backup. If it is left out, there is none. */
  passphrase?: Text | undefined;
  /** The fingerprint that the secret should have: eight hexadecimal digits. If it is left out, nothing is compared. */
  expect?: Text | undefined;
}

export interface RecoverOptions extends DecryptOptions {
  /** A greater exponent of the mnemonics is refused (3). If it is left out, every exponent is taken. */
  maxExponent?: number | undefined;
}

/** What papers recover. */
export interface Recovered {
  secret: Uint8Array;
  /**
   * The names of the quorums of which a digest doesn't match, such as `0.0+0.1`. If the first quorum is right, no other one is tried, and
   * this is empty.
   */
  failed: string[];
  /** The names of the papers that are in a quorum that failed, and in none that is right: the wrong ones are among them. */
  doubtful: string[];
}

export interface ResplitOptions {
  /**
   * The random bytes, exactly as many as `create` takes for the plan and a secret as long as the value of a mnemonic. They must be
   * unpredictable, and no other backup may use them. If they are left out, `crypto.getRandomValues` gives them.
   */
  random?: Uint8Array | undefined;
}

interface AnyDrillOptions extends RecoverOptions {
  /** The names of a quorum. The drill starts with the next one. If it is left out, the drill starts with the first. */
  after?: Text | undefined;
}

/** The options of a drill that gives secrets or fingerprints. */
export interface ListingOptions extends AnyDrillOptions {
  /** Whether outcomes have fingerprints instead of secrets. If it is left out, they have secrets. */
  fingerprints?: boolean | undefined;
  expect?: undefined;
}

/** The options of a drill that compares fingerprints. */
export interface ComparingOptions extends AnyDrillOptions {
  fingerprints?: false | undefined;
}

/** `fingerprints` and `expect` can't stand together. */
export type DrillOptions = ListingOptions | ComparingOptions;
