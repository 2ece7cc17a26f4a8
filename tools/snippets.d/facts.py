"""The facts that documents mark: the source of each, and whether the values in the documents are those of the sources."""

import math
import re

from repository import SOURCES, TOP, Fault, line_of, read

MARK = re.compile(r"<!-- fact: (\w+) -->(\n?)")
ALMOST_MARK = re.compile(r"<!--\s*facts?\b")
BEGINNING = re.compile(r"(?:\s|>|[-*+]\s|\d+[.)]\s)*")
END = r"(?![\d^]|\.\d)"
NUMBER = re.compile(rf"(?:2\^\d+(?: [+-] \d+)?|\d[\d,]*\d|\d){END}")
RATIO = re.compile(rf"\d+\.\d+{END}")
CODE = re.compile(r"`[^`\n]+`")

# The name of a sum of lines, which depends on where the mark stands: `tables` compares it.
LINES = "lines"


def kit():
    """The toolchain that made dist/, as `rt version` prints it."""
    return read("dist/proof").splitlines()[0].removeprefix("# toolchain: ")


def crates():
    return sum(1 for line in read("crates.txt").splitlines() if line.partition("#")[0].strip())


def edits(ending=""):
    """The number of edits whose names end so."""
    return sum(1 for _ in TOP.glob(f"crates/*/must-fail/*{ending}.edit"))


def tests():
    return sum(read(path).count("#[test]") for path in TOP.glob(SOURCES))


def vectors(source, *names):
    """The number of lines in these arrays of a module of aead_vectors."""
    text = read(f"crates/aead_vectors/src/{source}.rt")
    return sum(int(re.search(rf"^pub const {name}: \[&str; (\d+)\]", text, re.MULTILINE)[1]) for name in names)


def of_nist():
    """The vectors of NIST's, which are the first lines of crates/test_vectors."""
    return 4 * int(re.search(r"^IN_A_FILE, FAILING = (\d+)", read("tools/test-vectors"), re.MULTILINE)[1])


def of_wycheproof():
    """The lines of crates/test_vectors after those."""
    return read("crates/test_vectors/stdin").count("\n") - of_nist()


def defined(name):
    """The value of a #define of deerlapse.h."""
    return int(re.search(rf"^#define {name} (\d+)$", read("crates/deerlapse/include/deerlapse.h"), re.MULTILINE)[1])


def size_of(name):
    """The size of a struct of deerlapse.h, whose words have eight bytes."""
    return 8 * int(re.search(rf"struct {name} {{[^}}]*words\[(\d+)\]", read("crates/deerlapse/include/deerlapse.h"))[1])


def constant(crate, name):
    """The value of a constant of a crate or, if it has no such constant, of aead_ciphers_base."""
    for folder in (crate, "aead_ciphers_base"):
        for path in TOP.glob(f"crates/{folder}/src/**/*.rt"):
            found = re.search(rf"^(?:pub(?:\(crate\))? )?const {name}: \w+ = ([^;]*);", read(path), re.MULTILINE)
            if found:
                value = found[1].replace("u32::MAX", str(2**32 - 1))
                value = re.sub(r"[A-Z][A-Z0-9_]+", lambda other: str(constant(crate, other[0])), value)
                return eval(value, {"__builtins__": {}})
    raise KeyError(f"no constant {name} in {crate}")


def ratios(row, peer):
    """The times of a peer over those of the library, in the rows of bench/results/times that the pattern matches whole, with
    the bits of the key."""
    rows = (line.split("\t") for line in read("bench/results/times").splitlines())
    return [(fields[1], float(fields[7])) for fields in rows if fields[6:7] == [peer] and re.fullmatch(row, fields[0])]


def ratio(row, peer):
    """The ratio in one row for AES-128."""
    return dict(ratios(re.escape(row), peer))["128"]


def least(row, peer):
    """The least ratio in these rows, for both lengths of the key."""
    return min(it for _, it in ratios(row, peer))


def greatest(row, peer):
    """The greatest ratio in these rows, for both lengths of the key."""
    return max(it for _, it in ratios(row, peer))


# Rows of bench/results/times: the wide form seals or opens a message, makes a mask, or makes a key.
MESSAGES = r"(sealing|opening), [^,]*, wide"
MESSAGES_V3 = r"`deerlapse_key_(seal|open_separate_tag)`, [^,]*, v3"
MASK_OF_C = "`deerlapse_quic_header_key_mask`, AES-128"
MASKS = r"a mask by AES-\d+, wide"
KEYS = r"making an AES(-GCM)? key, wide"
NO_AES_NI = "OpenSSL, no AES-NI"

CONTRIBUTING, SECURITY = "CONTRIBUTING.md", "SECURITY.md"
BELIEVE, BENCHMARKS, C = "docs/BELIEVE.md", "docs/BENCHMARKS.md", "docs/guide/C.md"
SEALED_FILE, RECORDS = "crates/sealed_file/SEALED_FILE.md", "crates/records/RECORDS.md"

# The facts by their names: the source of each, and the documents of which each must mark it. One without documents must be marked
# in any. A source returns a number, a ratio, which is written with one decimal, or a text, which is written as code.
FACTS = {
    "kit": (kit,),
    "crates": (crates, CONTRIBUTING),
    "edits": (edits, CONTRIBUTING),
    "edits_in_answer": (lambda: edits("-in_answer"), CONTRIBUTING),
    "edits_by_hand": (lambda: edits("-by_hand"), CONTRIBUTING),
    "edits_at_loop": (lambda: edits("-at_loop"), CONTRIBUTING),
    "tests": (tests, CONTRIBUTING),
    "vectors_of_nist": (of_nist,),
    "vectors_of_wycheproof": (of_wycheproof,),
    "vectors_of_gcm": (lambda: vectors("gcm_spec", "CASES"), BELIEVE),
    "vectors_of_fips_197": (lambda: vectors("fips_197", "CASES"), BELIEVE),
    "vectors_of_sp_800_38a": (lambda: vectors("sp_800_38a", "ECB", "CTR"), BELIEVE),
    # Of deerlapse.h.
    "max_stack_in_kib": (lambda: defined("DEERLAPSE_MAX_STACK") // 1024,),
    "size_of_key": (lambda: size_of("deerlapse_key"), C),
    "size_of_xaes": (lambda: size_of("deerlapse_xaes"), C),
    "size_of_quic_key": (lambda: size_of("deerlapse_quic_key"), C),
    "size_of_quic_header_key": (lambda: size_of("deerlapse_quic_header_key"), C),
    "size_of_sealer": (lambda: size_of("deerlapse_sealer"), C),
    "size_of_message": (lambda: size_of("deerlapse_message"), C),
    # Of formats, and limits.
    "chunk_len_in_kib": (lambda: constant("sealed_file", "CHUNK_LEN") // 1024,),
    "chunk_len": (lambda: constant("sealed_file", "CHUNK_LEN"), SEALED_FILE),
    "sealed_chunk_len": (lambda: constant("sealed_file", "SEALED_CHUNK_LEN"), SEALED_FILE),
    "max_chunks": (lambda: constant("sealed_file", "MAX_CHUNKS"), SEALED_FILE, SECURITY),
    "context_len": (lambda: constant("xaes", "CONTEXT_LEN"), SEALED_FILE),
    "prefix_len": (lambda: constant("sealed_file", "PREFIX_LEN"), SEALED_FILE),
    "commitment_len": (lambda: constant("sealed_file", "COMMITMENT_LEN"), SEALED_FILE),
    "max_iterations": (lambda: constant("sealed_file", "MAX_ITERATIONS"), SEALED_FILE),
    "iterations": (lambda: constant("sealed_file", "ITERATIONS"), SEALED_FILE),
    "max_size_limit": (lambda: constant("records", "MAX_SIZE_LIMIT"), RECORDS),
    "min_size_limit": (lambda: constant("records", "MIN_SIZE_LIMIT"), RECORDS),
    "max_records": (lambda: constant("records", "DEFAULT_LIMIT"), SECURITY),
    "max_packets": (lambda: constant("quic_packets", "CONFIDENTIALITY_LIMIT"), SECURITY),
    "max_failed_packets": (lambda: constant("quic_packets", "INTEGRITY_LIMIT"), SECURITY),
    # How many times as fast as a peer the wide form is, on x86-64-v2 or, with _v3, on x86-64-v3.
    "speed_of_wide": (lambda: ratio("sealing, 16 KiB, wide", "Libraries"), "docs/guide/RATTLE.md"),
    "speed_to_bearssl": (lambda: least(MESSAGES, "BearSSL, clang"), BENCHMARKS),
    "speed_to_bearssl_v3": (lambda: least(MESSAGES_V3, "BearSSL, clang"), BENCHMARKS),
    "speed_to_no_aes_ni": (lambda: least(MESSAGES, NO_AES_NI), BENCHMARKS),
    "speed_to_no_aes_ni_v3": (lambda: least(MESSAGES_V3, NO_AES_NI), BENCHMARKS),
    # How many times as long as OpenSSL without AES-NI it takes.
    "time_of_c_mask": (lambda: 1 / least(MASK_OF_C, NO_AES_NI), BENCHMARKS),
    "time_of_c_mask_v3": (lambda: 1 / least(MASK_OF_C + ", v3", NO_AES_NI), BENCHMARKS),
    "least_time_of_mask": (lambda: 1 / greatest(MASKS, NO_AES_NI), BENCHMARKS),
    "greatest_time_of_mask": (lambda: 1 / least(MASKS, NO_AES_NI), BENCHMARKS),
    "least_time_of_key": (lambda: 1 / greatest(KEYS, NO_AES_NI), BENCHMARKS),
    "greatest_time_of_key": (lambda: 1 / least(KEYS, NO_AES_NI), BENCHMARKS),
    "time_of_key_v3": (lambda: 1 / ratio("`deerlapse_key_init`, v3", NO_AES_NI), BENCHMARKS),
    "time_of_counter_mode": (lambda: 1 / ratio("counter mode, 16 KiB, wide", NO_AES_NI), BENCHMARKS),
    "time_of_chacha20": (lambda: 1 / least("ChaCha20, 16 KiB", NO_AES_NI), BENCHMARKS),
    # How many times as fast as the library OpenSSL with all instructions seals.
    "openssl_at_1350": (lambda: round(1 / ratio("sealing, 1350 bytes, wide", "OpenSSL")), BENCHMARKS),
    "openssl_at_1350_v3": (lambda: round(1 / ratio("`deerlapse_key_seal`, 1350 bytes, v3", "OpenSSL")), BENCHMARKS),
    "openssl_at_16_kib": (lambda: round(1 / ratio("sealing, 16 KiB, wide", "OpenSSL")), BENCHMARKS),
    "openssl_at_16_kib_v3": (lambda: round(1 / ratio("`deerlapse_key_seal`, 16 KiB, v3", "OpenSSL")), BENCHMARKS),
}


def number_in(text):
    """A number that is written in digits, with commas or without, or as a power of 2."""
    return eval(text.replace(",", "").replace("^", "**"), {"__builtins__": {}})


def written(value, said):
    """A value as a document writes it: a number like the one that it replaces, as a power of 2 or with or without commas."""
    if isinstance(value, str):
        return f"`{value}`"
    if isinstance(value, float):
        return f"{value:.1f}"
    if "^" in said:
        exponent = round(math.log2(value))
        rest = value - 2**exponent
        return f"2^{exponent}" + (f" {'-' if rest < 0 else '+'} {abs(rest)}" if rest else "")
    return str(value) if len(said) > 3 and "," not in said else f"{value:,}"


def compare(document, text, mark, value, place):
    """What is wrong with the value after a mark, if anything. `place` says where its source is."""
    form = {str: CODE, float: RATIO}.get(type(value), NUMBER)
    said = form.match(text, mark.end())
    if said is None:
        what = {CODE: "code", RATIO: "ratio"}.get(form, "number")
        yield Fault(f"{line_of(document, text, mark.start())}: no {what} after {mark[0].strip()}")
        return
    right = written(value, said[0])
    if said[0] != right and (form is not NUMBER or number_in(said[0]) != value):
        message = f"{line_of(document, text, said.start())}: {mark[1]} is {said[0]} here, and {right} by {place}"
        yield Fault(message, document, *said.span(), right)


def wrong_marks(document, shown):
    """What is wrong with the marks themselves: one that is written otherwise, or that makes its line HTML, at its beginning."""
    found = {mark.start(): mark for mark in MARK.finditer(shown)}
    for almost in ALMOST_MARK.finditer(shown):
        mark, before = found.get(almost.start()), shown[: almost.start()].rpartition("\n")[2]
        if mark is None:
            message = "a mark is <!-- fact: NAME -->"
        elif mark[2] and before:
            message = f"no value on the line of {mark[0].strip()}"
        elif not mark[2] and BEGINNING.fullmatch(before):
            message = f"{mark[0]} begins a line, which makes it HTML: a line of its own above is its place"
        else:
            continue
        yield Fault(f"{line_of(document, shown, almost.start())}: {message}")


def unmarked(marked):
    """What the documents don't mark, of which each has the names that it marks."""
    for name, (_, *documents) in FACTS.items():
        yield from (Fault(f"{it}: no mark <!-- fact: {name} -->") for it in documents if name not in marked.get(it, ()))
        if not documents and not any(name in names for names in marked.values()):
            yield Fault(f"no document has a mark <!-- fact: {name} -->")


def compared(texts, shown):
    """The number of marked values that were compared, and what is wrong. `shown` has the texts without their code."""
    values, marked, count, found = {}, {}, 0, []
    for name, (source, *_) in FACTS.items():
        try:
            values[name] = source(), f"tools/snippets.d/facts.py:{source.__code__.co_firstlineno}"
        except (KeyError, OSError, TypeError, ValueError) as error:
            found.append(Fault(f"the source of the fact {name} isn't found: {error}"))
    for document, text in texts.items():
        found += wrong_marks(document, shown[document])
        marked[document] = set()
        for mark in MARK.finditer(shown[document]):
            marked[document].add(mark[1])
            if mark[1] in values:
                count += 1
                found += compare(document, text, mark, *values[mark[1]])
            elif mark[1] not in (*FACTS, LINES):
                found.append(Fault(f"{line_of(document, text, mark.start())}: there is no fact {mark[1]}"))
    return count, found + list(unmarked(marked))
