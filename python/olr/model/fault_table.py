"""What each fault means and what to do about it: the rows of docs/FAULTS.md, and what `olr explain` prints.

Words in capital letters stand for what the program puts in their places.
"""

ROWS: dict[str, tuple[str, str]] = {
    "AfterWithAll": (
        "`--after` and `--all` were given together",
        "leave one out; for all that is left after a cursor, use `--after` with `--page 1000`",
    ),
    "BadTolerance NAME": (
        "the tolerance NAME is out of its range",
        "`olr match --help` lists their ranges and units",
    ),
    "BadPage N": (
        "the page size N is out of its range",
        "use 1 to 1000, or `--all`",
    ),
    "BadNumber NAME": (
        "the number NAME of `places`, `why`, `legs` or `lines` is out of its range, or the box of `lines` ends before it begins; of several this is the first in the order given here",
        "the ranges are `--apart` 0 to 1000000 dm, `--within` 0 to 14620 penalty points, `--look` 1 to 1000000 matchings, `--most` 1 to 100 places; of `why`, `--nearest` 0 to 64 lines; of `legs`, `--near` 0 to 100 thousandths; of `lines`, `--most` 1 to 200000 lines, and `--box W,S,E,N` has the west before the east and the south before the north",
    ),
    "OpenFailed FILE": (
        "the file of nodes, lines or bans can't be opened, or that of a confidence, which is `confidence`, or that of the records of a batch, which is `input`",
        "`ls -l` the path; a store is asked by `olr-tools match MESSAGES --map STORE --out FILE`, and about any number of references by `olr-tools run MESSAGES --store STORE --out DIR`",
    ),
    "TooLong": (
        "more than 344 bytes of text",
        "pass one reference",
    ),
    "NotBase64": (
        "the text isn't standard base64",
        "replace `-` by `+` and `_` by `/`, and add `=` until the number of letters is a multiple of 4",
    ),
    "Empty": (
        "there is no text but blanks",
        "look where the text comes from",
    ),
    "BadVersion V": (
        "the version in the first byte is V, and not 3",
        "ask the sender for version 3 of the binary format",
    ),
    "OtherKind Area": (
        "a circle, rectangle, grid, polygon or closed line",
        "`olr` only finds lines, and points along a line",
    ),
    "OtherKind GeoCoordinate": (
        "a position without a road",
        "take the coordinates: there is nothing to match",
    ),
    "PoiWithAccess": (
        "a point of interest with an access point",
        "`olr` doesn't read this kind",
    ),
    "BadLength N": (
        "N bytes are no size of a reference",
        "compare with the message",
    ),
    "TooManyPoints C": (
        "C points, more than 32",
        "ask the sender to split it",
    ),
    "OffsetFlags": (
        "the flags of the offsets and the number of offset bytes differ",
        "pass one reference; compare with the message, or report it to the sender",
    ),
    "OutOfRange P": (
        "point P is beyond 80 degrees of latitude or 180 degrees of longitude",
        "report it to the sender",
    ),
    "Header FILE": (
        "the first record isn't the header",
        "the headers are `id,lon,lat`, `id,from,to,class,form,length,shape` and `from,to`, in this spelling; save as CSV with commas, in UTF-8",
    ),
    "TooMany FILE": (
        "more than 100,000 nodes, 200,000 lines or 200,000 bans",
        "make a store of the map, `olr-tools regions DIR --out STORE`, and ask it by `olr-tools match` or `run`; or cut out the surroundings of the reference: its points (`olr show`), the radius, and room for detours",
    ),
    "Shape FILE N": (
        "the record has another number of fields than the header",
        "a line without a shape ends with a comma; a shape has blanks and semicolons only, as in `7418773 49871296;7418800 49871310`",
    ),
    "Field FILE N C": (
        "column C has no value of its kind",
        "coordinates are whole microdegrees, lengths whole decimetres, classes and forms 0 to 7; a shape has 64 points at most",
    ),
    "Duplicate FILE N": (
        "an earlier record has the same id, or bans the same turn",
        "each direction of a road needs its own id; drop repeated records",
    ),
    "UnknownNode N": (
        "the line's `from` or `to` isn't in the file of nodes",
        "drop such lines, or add the nodes",
    ),
    "ZeroLength N": (
        "the line has length 0",
        "the unit is the decimetre; a very short line has length 1",
    ),
    "Degenerate N": (
        "two neighbouring points of the line are equal",
        "leave the ends and repeated points out of the shape; join nodes in one microdegree to one",
    ),
    "UnknownLine N": (
        "the ban names a line that isn't in the file of lines",
        "name the two lines, one direction each",
    ),
    "NotAdjacent N": (
        "the ban's second line doesn't start where its first line ends",
        "a ban is about one node: the end of `from`, which is the start of `to`",
    ),
    "ReadFailed FILE": (
        "reading broke off; of `input` the lines of all records that ended before are written",
        "try `cat` on the file",
    ),
    "BadCursor": (
        "the text behind `--after` or `--at` isn't a cursor",
        "copy what follows `more ` up to the line's end",
    ),
    "CursorOfOther": (
        "the cursor is of another reference, map, or set of tolerances",
        "begin again without `--after`, or go back to the old map and options. The page size and the order of records don't matter",
    ),
    "CursorNotHere": (
        "no matching has this cursor",
        "begin again without `--after`",
    ),
    "BadConfidence": (
        "the file behind `--confidence` isn't that of a confidence",
        "write it anew: `olr-tools calibrate`",
    ),
    "TooManyCandidates I": (
        "more than 64 lines may carry point I",
        "`olr why` has the greatest `--radius`, `--bearing` and `--class` with which no point has too many; lower one of them",
    ),
    "LongRecord": (
        "the record has more than 65,536 bytes",
        "give one record a line",
    ),
    "NotText": (
        "the record isn't UTF-8",
        "convert it: `iconv -f LATIN1 -t UTF-8`",
    ),
    "Words TEXT": (
        "of `answer`: the words of the record aren't those of a request, as TEXT says",
        "write the words as behind `olr`, without files, and ` -- ` before the reference",
    ),
    "BadCell TYPE": (
        "of `olr.locate`: the cell has no text, but a TYPE",
        "look which column has the references, which are texts in base64",
    ),
    "RegionTooLarge": (
        "on a store: the part of the map that the reference needs has more than 100,000 nodes, 200,000 lines or 200,000 bans",
        "lower `--radius`, `--percent` and `--slack`; ask `--places` in place of `--why`",
    ),
    "NotOnPage": (
        "of a page of `--live`: it has only the part of the map that other references need",
        "ask on the whole map; `olr-tools page` writes a page that has all of it",
    ),
    "ProgramFailed": (
        "of `olr-tools run`: the program ended at the record, or wrote something else than its line, when it was asked about this record alone",
        "delete the part with the record, and go on by `--resume`; if it fails again, report the record and the map",
    ),
    "TimedOut": (
        "of `olr-tools run`: the program wrote nothing for `--patience` seconds when it was asked about this record alone",
        "delete the part with the record, and go on by `--resume` with a greater `--patience`; or ask it in another run, with lower tolerances",
    ),
    "BadElement NAME": (
        "of a reference in XML: its element NAME is missing, is there twice, or has no value of its kind",
        "compare with the message, or report it to the sender",
    ),
    "LegTooLong P": (
        "of a reference in XML: the path from point P to the next one has 15 km or more",
        "ask the sender for points that are less than 15 km apart",
    ),
    "TooFar P": (
        "of a reference in XML: point P is more than 0.3276 degrees of longitude or latitude from the one before it",
        "ask the sender for points that are nearer to each other",
    ),
    "OffsetTooLong NAME": (
        "of a reference in XML: the offset NAME isn't shorter than the first leg, or the last one",
        "ask the sender to leave out points that the location doesn't reach",
    ),
    "NoMemory": (
        "the allocator refused memory",
        "raise the limit, or cut the map",
    ),
    "WriteFailed": (
        "the output couldn't be written completely",
        "what was written is a beginning of the output: don't use it, unless its reader wanted no more of it, as `head`: `2>/dev/null` hides the line then",
    ),
}
"""The line that `olr` prints, with its meaning and what to do."""
