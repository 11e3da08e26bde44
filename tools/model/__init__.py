"""What documents 01 and 02 say of settings, trees, texts and rows, each rule once. Written from these papers, for the text from
src/ds/gpkg.rs of the Rust and for reducing from its src/expr.rs; it takes nothing from the proved crates and calls none of their programs, so that
what agrees with it was found twice. The makers of stored answers (tools/answers), fuzz, bench and the tests expect what it answers.

    limits      every number that bounds something
    refusals    the numbers of the refusals
    names       what a name may be
    strings     what texts in records may hold, and how a string stands in quotes
    operators   the operators: numbers, spellings, classes
    records     trees, settings and rows as bytes
    checker     which settings and trees are accepted: refusals 1 to 7
    reduction   what an accepted tree is reduced to: refusal 14
    lowering    the SQL text of an accepted tree, in either writing
    reader      a text's truth on a row: refusals 11 to 13
    calls       the calls as a caller hears them: the order of the refusals, 2 and 8 to 10 among them; previews
    c           the same in the numbers of the C functions, and the lent buffer"""
