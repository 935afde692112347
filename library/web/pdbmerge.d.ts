/** The types of Program Database (PDB) files, checked, merged, compared and shown.
 *
 * Files are bytes in memory. They are copied into the memory of the module for each call, so it keeps nothing of
 * them. A call that refuses throws PdbError. Each call runs until it has its answer: use a worker in a page. */

/** The names of the leaves that are read, by their kinds: `leaves.get(0x1505)` is `LF_STRUCTURE`. */
export const leaves: ReadonlyMap<number, string>;

/** A refusal. */
export class PdbError extends Error {
    constructor(number: number, text: string, input?: number | null);
    /** The number of the fault. docs/FAULTS.md explains those below 100; 33 says that there was no memory. */
    readonly number: number;
    /** The text as the program prints it, at most 235 bytes of it: `file 1: 2 Magic`. */
    readonly text: string;
    /** The position of the input at fault, from 0, or null where none is. */
    readonly input: number | null;
}

/** What identifies a file. */
export interface Identity {
    guid: string;
    /** That of stream 1. */
    age: number;
    /** That of the container, in bytes. */
    blockSize: number;
}

/** What the container of a file has. */
export interface Layout {
    blockSize: number;
    /** How many blocks the superblock counts. */
    blockCount: number;
    freeBlocks: number;
    directoryBytes: number;
    /** The size of each stream, in the order of their numbers. A nil stream has size 0. */
    sizes: Uint32Array;
}

/** What an accepted file has. */
export interface Counts {
    /** How many type records. */
    records: number;
    /** How many bytes they have together. */
    bytes: number;
    /** How many types the longest chain of references has. */
    levels: number;
}

/** What a merged file is to have. */
export interface Settings {
    /** With hyphens, without, in braces or as a URN; or its 16 bytes, in the order in which it is printed. 'types' is
     * the one that is made of the types. */
    guid: string | Uint8Array;
    age: number;
    /** The most bytes that the type records may have together; 2 ** 30 where it is not given. */
    limit?: number;
    /** 512, 1024, 2048, 4096, 8192, 16384 or 32768; 4096 where it is not given. */
    blockSize?: number;
}

/** A merged file. */
export interface Merged {
    file: Uint8Array;
    /** How many types it has. */
    types: number;
    /** How many bytes their records have together. */
    bytes: number;
}

/** A merged file, and where the types went. */
export interface MergedWithMaps extends Merged {
    /** For each file, and for each of its records in their order, the type index in the merged file. */
    maps: Uint32Array[];
}

/** A stream that has a name. */
export interface NamedStream {
    name: Uint8Array;
    number: number;
}

/** A type that a record names. */
export interface Reference {
    /** Where its type index stands: the offset in the record, behind its first four bytes. */
    place: number;
    index: number;
}

/** What all records of a file name, one record after the other. */
export interface AllReferences {
    /** The place of each reference. */
    places: Uint32Array;
    /** The type index of each. */
    indices: Uint32Array;
    /** Where what each record names ends. It begins where that of the one before ends. */
    ends: Uint32Array;
}

/** A type that only one of two files has. */
export interface Difference {
    /** The file that has it: 0 or 1. */
    input: number;
    /** The type index of its first record there. */
    index: number;
    /** Whether the difference begins here: the other file has each type that it names. */
    origin: boolean;
}

/** The names of many records. */
export interface Names {
    /** One behind the other. */
    bytes: Uint8Array;
    /** Where the name of each record ends. It begins where the one before ends. */
    ends: Uint32Array;
    /** 1 for each record that has a name, and 0 for each other. */
    named: Uint8Array;
}

/** A type record of a file. What it names and its name are read when they are asked for. */
export class Record {
    private constructor();
    /** Its type index. */
    readonly index: number;
    /** All of it, with its length and its kind. */
    readonly bytes: Uint8Array;
    /** How many bytes it has. */
    readonly size: number;
    readonly kind: number;
    /** The name of its kind, or null where none is known. */
    readonly leaf: string | null;
    /** The types that it names. Refused: 22, 23, 25 to 30. */
    readonly references: Reference[];
    /** The name of the type that it describes, or null. Refused: 22, 23. */
    readonly name: Uint8Array | null;
    /** The line that the command `types` prints for it. */
    toString(): string;
}

/** The type records of a file, in the order of their type indices. */
export class Records implements Iterable<Record> {
    private constructor();
    readonly length: number;
    /** The record at a position, from 0. */
    at(position: number): Record | undefined;
    /** The record of a type index; the first one is 0x1000. */
    get(index: number): Record | undefined;
    /** The kind of the record at a position. */
    kind(position: number): number;
    /** The names of all records at once. */
    names(): Names;
    [Symbol.iterator](): Iterator<Record>;
}

/** The calls of the library. What each refuses, by the numbers of the faults, stands behind it. */
export class Pdbmerge {
    private constructor();
    /** Makes the module of the bytes of pdbmerge.wasm, or of what WebAssembly.compile made of them. */
    static load(bytes: BufferSource | WebAssembly.Module): Promise<Pdbmerge>;
    /** The version of the library, as 0.2.0. */
    readonly version: string;
    /** How many bytes the memory of the module has. It never becomes less: make a new module for less. */
    readonly memory: number;
    /** What identifies a file: 1 to 12, 33. */
    identify(file: Uint8Array): Identity;
    /** The container of a file: 1 to 10, 33. */
    layout(file: Uint8Array): Layout;
    /** The numbers of the blocks of all streams, one stream after the other: 1 to 10, 33. */
    blocks(file: Uint8Array): Uint32Array;
    /** Checks whether the types of a file can be trusted: 1 to 12, 16 to 31, 33, 34. */
    check(file: Uint8Array): Counts;
    /** One file with exactly the types of all files, each once, in canonical order. The same types give the same
     * bytes. Refused: those of check, 32, 33, 101. */
    merge(files: readonly Uint8Array[], settings: Settings): Merged;
    /** Merges as merge does, and tells where the type of each record went. */
    mergeWithMaps(files: readonly Uint8Array[], settings: Settings): MergedWithMaps;
    /** The GUID that is made of the types of all files: those of check, 32, 33. */
    guidOfTypes(files: readonly Uint8Array[]): string;
    /** A copy of a stream, by its number from 0. Stream 2 holds the type records. Refused: 1 to 11, 33. */
    stream(file: Uint8Array, number: number): Uint8Array;
    /** The streams that have a name: those of stream, 12 to 15. */
    namedStreams(file: Uint8Array): NamedStream[];
    /** The feature codes that end stream 1: those of stream, 12 to 15. */
    features(file: Uint8Array): Uint32Array;
    /** The type records, which are not checked as types: those of stream, 16 to 24. */
    records(file: Uint8Array): Records;
    /** The type record of a type index: those of records, and 39 where there is none. */
    record(file: Uint8Array, index: number): Record;
    /** The types that a record names: 22, 23, 25 to 30, 33. The index is that of its own, for the text of a fault. */
    references(record: Uint8Array, index?: number): Reference[];
    /** What all type records of a file name: those of records, 25 to 30. */
    allReferences(file: Uint8Array): AllReferences;
    /** The name of the type that a record describes, or null: 22, 23. */
    name(record: Uint8Array, index?: number): Uint8Array | null;
    /** The names of the records that begin at these offsets of stream 2. Their type indices begin with 0x1000. */
    names(stream: Uint8Array, offsets: BigUint64Array): Names;
    /** The types that only one of two files has, those of the first file first: those of check. */
    diff(first: Uint8Array, second: Uint8Array): Difference[];
    /** The text of the definitions that have one of these names, or of all, as the command `members` prints it: those
     * of check. */
    members(file: Uint8Array, names?: readonly (string | Uint8Array)[]): Uint8Array;
    /** What changed between the definitions of two files, as `diff --members` prints it: those of check. */
    changes(first: Uint8Array, second: Uint8Array): Uint8Array;
}

/** Makes the module of the file pdbmerge.wasm that lies beside this one. */
export function load(): Promise<Pdbmerge>;

/** The bytes of a GUID that is told in one of the usual forms. */
export function parseGuid(text: string): Uint8Array;

/** A GUID as the program prints it. */
export function formatGuid(bytes: Uint8Array): string;

/** A name as the program prints it: in quotes, and what is no printable ASCII by its number. */
export function quoted(bytes: Uint8Array): string;
