"""The words of Rattle's standard library that contracts and definitions use, each with what it means."""

# Those that the first page of each crate explains.
FIRST_OPERATORS = ("◌≡◌", "◌≢◌", "◌↔◌", "◌⊎◌", "◌+◌", "◌-◌", "◌*◌", "◌/◌", "◌%◌", "◌^◌", "◌<◌", "◌≤◌", "◌++◌", "◌∷◌")
FIRST_WORDS = ("⊤", "[]", "ℕ", "length", "take", "drop", "replicate", "IsOk", "OnOk", "IfOk", "OnErr", "IfErr", "is_ok", "IsTrue")
FIRST = {*FIRST_OPERATORS, *FIRST_WORDS, "sem", "Lends"}

# Those that the page above the definitions of a crate explains, if its pages use them: words, and the sentences about them.
WORDS = {
    ("List",): "`List A`: the type of the lists of values of the type A.",
    ("slice_index", "slice_index_or"): (
        "`slice_index xs i`: item i of a list of numbers, or 0 if there is none. The first item is item 0. "
        "`slice_index_or xs i d`: item i of any list, or d if there is none."
    ),
    ("slice_range",): "`slice_range xs a b`: the items from item a up to item b, without this one.",
    ("slice_get",): "`slice_get xs i`: `Some` of item i, or `None`.",
    ("slice_set",): "`slice_set xs i x`: xs with x in place of item i.",
    ("map", "reverse"): "`map f xs`: f of each item. `reverse xs`: the items in reverse order.",
    ("concat", "flat_map"): "`concat xss`: the lists of a list, joined. `flat_map f xs`: the lists f of each item, joined.",
    ("zip2",): "`zip2 f xs ys`: f of each two items at the same place, as long as both lists have one.",
    ("fold", "iterate"): (
        "`fold f a xs`: a if xs is empty, and else `fold f (f a x) rest`, where x is the first item. `iterate f n x`: f, "
        "applied n times to x."
    ),
    ("range_with_len",): "`range_with_len a n`: the n numbers from a on.",
    ("find", "list_any"): (
        "`find p xs`: `Some` of the first item of which p is `true`, or `None`. `list_any p xs`: whether there is one."
    ),
    ("first_chunks", "chunk_count"): (
        "`first_chunks n k xs`: the first k parts of n items each. `chunk_count n k`: how many parts of k items n items "
        "make. The last part may be shorter."
    ),
    ("All", "Each1"): "`All P xs` and `Each1 P xs`: P of each item.",
    ("Any",): "`Any P xs`: P of some item.",
    ("AllZip",): "`AllZip R xs ys`: the lists are equally long, and R holds of each two items at the same place.",
    ("Contains",): "`Contains xs x`: x is an item of xs.",
    ("FoldsTo",): (
        "`FoldsTo R p xs q`: if xs is empty, then p is q. Else `R p x j` and `FoldsTo R j rest q` for some j, where x is "
        "the first item."
    ),
    ("zero", "suc"): "`zero`: 0. `suc n`: n + 1.",
    ("min", "max", "div_ceil"): (
        "`min a b` and `max a b`: the lesser and the greater number. `div_ceil a b`: a / b, rounded up."
    ),
    ("bit_at", "bit_and", "bit_xor", "bit_or"): (
        "`bit_at n i`: bit i of n, of which the lowest is bit 0. `bit_and a b`, `bit_or a b` and `bit_xor a b`: Rust's `a & b`, "
        "`a | b` and `a ^ b`."
    ),
    ("to_be_bytes", "to_le_bytes", "from_be_bytes", "from_le_bytes", "rotate_left", "w16", "w32", "w64", "w128"): (
        "`to_be_bytes w n`, `to_le_bytes w n`, `from_be_bytes w xs`, `from_le_bytes w xs` and `rotate_left w n k`: what "
        "Rust's methods of these names return for an unsigned integer of the width w, which is `w16`, `w32`, `w64` or "
        "`w128`. Of a number that is too large, the first two have the lowest bytes."
    ),
    ("bytes_high_first", "number_from_digits"): (
        "`bytes_high_first k n`: the k lowest bytes of n, the highest first. `number_from_digits p xs`: the number that has the "
        "digits xs to the base p, the highest first."
    ),
    ("number_l", "digits_l"): (
        "`number_l p xs`: the number that has the digits xs to the base p, the lowest first. `digits_l p n x`: the n "
        "lowest digits of x."
    ),
    ("Bool", "true", "false", "IsFalse", "not", "◌&&◌", "◌||◌"): (
        "`Bool`: the type of `true` and `false`. `IsFalse b`: b is `false`. `not b`, `a && b` and `a || b`: Rust's `!b`, "
        "`a && b` and `a || b`."
    ),
    ("nat_eq", "nat_lt", "nat_le", "leb", "◌==◌"): (
        "`nat_eq a b` and `a == b`, `nat_lt a b`, `nat_le a b` and `leb a b`: whether a is b, is less than b, is at most b, as a "
        "`Bool`."
    ),
    ("if◌then◌else◌", "cond"): "`if b then x else y` and `cond b x y`: x if b is `true`, and y if it is `false`.",
    ("Option", "Some", "None", "Result", "Ok", "Err"): "`Option`, `Result` and their variants: those of Rust.",
    ("IsSome", "IfSome", "MatchOption", "unwrap_or"): (
        "`IsSome o`: o is `Some`. `IfSome o (λ v. P)`: if o is `Some` of v, then P. `MatchOption o P (λ v. Q)`: P if o is "
        "`None`, and Q if it is `Some` of v. `unwrap_or o d`: Rust's `o.unwrap_or(d)`."
    ),
    ("IsNone", "IfNone"): "`IsNone o`: o is `None`. `IfNone o P`: if o is `None`, then P.",
    ("is_some", "option_map", "option_copied"): (
        "`is_some o`, `option_map f o` and `option_copied o`: what Rust's `o.is_some()`, `o.map(f)` and `o.copied()` return."
    ),
    ("IsErrOf", "IsOkUnless"): "`IsErrOf r e`: r is `Err` of e. `IsOkUnless r e`: r is `Ok`, or `Err` of e.",
    ("Vec",): "`Vec`: the type of Rust's `Vec`.",
    ("sha256", "sha384"): "`sha256 m` and `sha384 m`: the digest of the message m by SHA-256 and SHA-384 (FIPS 180-4).",
    ("Appends", "Keeps", "ReadConsumes", "ReadsAtMost"): (
        "Of a stream, a contract speaks of `R.remaining`, the bytes that are still to be read, or `W.contents`, those that were "
        "written, each an `Option`, which is `None` where nothing is known of the stream. `Appends a b xs`: b is a followed by xs. "
        "`Keeps a b`: b is a. `ReadConsumes a b r buf`: if the result r of a read is `Ok` of n, then a is the first n bytes of buf "
        "followed by b, and else b is a. `ReadsAtMost r buf`: r is an `Err`, or `Ok` of at most the length of buf."
    ),
    ("cursor_inner",): "`cursor_inner c`: what the `Cursor` c reads, as `c.get_ref()` returns it.",
    ("vec_len", "vec_capacity", "with_items"): (
        "`vec_len v` and `vec_capacity v`: the length and the capacity of a `Vec`. `v.items`: its items. `with_items v "
        "xs`: v with the items xs in place of its own, from the first on. The length stays."
    ),
    ("codes",): "`codes \"..\"`: the bytes of an ASCII text.",
    ("decimal", "debug_variant", "debug_list"): (
        "`decimal n`: what `{}` prints of a number. `debug_variant name text`: the name and, in parentheses, the text. "
        "`debug_list f xs`: f of each item, in brackets and with commas."
    ),
    ("at_most", "item_count", "UpTo", "IsWithinCount"): (
        "`at_most n`: a bound of n for a count. `item_count f s`: the bound for which n is the length of the list f s. "
        "`UpTo c n`: the bound c is no more than n. `IsWithinCount n c`: n is no more than the bound c."
    ),
    ("YieldsFirstRef",): (
        "`YieldsFirstRef f s r t`: a call of `next` returned r, and s and t are the iterator before and after it. If r is "
        "`Some`, it points to the first item of the list f s, and f t has the others. Else both lists are empty."
    ),
    ("chunks_mut_rest", "chunks_mut_size"): (
        "`chunks_mut_rest it`: the items that the `ChunksMut` has still to return. `chunks_mut_size it`: the length of "
        "its parts."
    ),
    ("Once", "Mut", "FnOnceTakesAt", "FnOnceReturnsAt", "TakesAt", "CalledAt"): (
        "`FnOnceTakesAt g f x`: the closure f may be called with a `&` to x. `FnOnceReturnsAt g f x r`: such a call may "
        "return r. `TakesAt g f x` and `CalledAt g f x r h`: the same for a closure that may be called again, and that is "
        "h after the call. g is what a call of a closure of the type F requires and ensures. Its type is `Once F A R` or "
        "`Mut F A R`, where A is the type of the arguments, as in `C × Unit {0}`, and R is that of the result."
    ),
    ("Bor", "MutBor", "GName"): (
        "`Bor A` and `MutBor A`: the types of a `&` and of a `&mut` to an A. `r.ghost_name`: which loan the `&mut` r "
        "belongs to, a value of the type `GName`."
    ),
    ("Array", "u8", "RattleType", "value_of", "the_row", "named"): (
        "`RattleType`: the type of the names that assertions have for types. `Array u8 0` is the name of `[u8]`, in which "
        "the 0 means nothing. `T.row` is that of a type parameter, and `the_row` that of a struct, with "
        "`record { mir = named n; lft = [] }` for a lifetime. `T.Denot`: the type with the name T. `value_of N`: the value "
        "of a const parameter."
    ),
    ("Fml", "fex", "fres"): (
        "`Fml`: the type of the assertions about loans. `fres name (T.coded.code v)`: the loan ends with the value v of the "
        "type with the name T. `fex A (λ a. F)`: F for some a of the type A."
    ),
    ("LendsIfOk", "LendsBoth", "LendsBothIf", "RestsIfErr"): (
        "`LendsIfOk A B s r f v`: if r is `Ok` of q, then `Lends A B s q f`, and if it is an `Err`, then s ends as v. "
        "`LendsBoth A B C s (q, r) f`: s ends as f x y, where q ends as x and r as y. `LendsBothIf`: the same for an "
        "`Option` of the pair. `RestsIfErr A s name r P`: if r is an `Err`, then P holds of what s ends as, and if it is "
        "`Ok`, then r contains s itself."
    ),
    ("follows", "follows_so", "none"): (
        "`follows A B s r f`: `Lends A B s r f`, where s and r are names of loans. `follows_so A B s r R P`: if r is the "
        "name of a loan, then `R x y` holds, where that ends as x and s as y, and if r is `none`, then P holds of what s "
        "ends as."
    ),
    ("refl", "ap", "ap₂", "sym", "◌∙◌", "arith", "length_refill"): (
        "`refl`, `ap`, `ap₂`, `sym`, `∙`, `omega`, `arith` and `length_refill`: words of proofs."
    ),
}
