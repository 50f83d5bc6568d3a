"""Files of messages: one reader for all commands, the lists of `serve`, `olr.read_messages` and `olr.read_feed`. docs/MESSAGES.md says what it reads.

| module | subject |
|---|---|
| `message` | a message: a key and a reference; what was said of a file of them |
| `opening`, `pieces` | a file, or standard input, as bytes in UTF-8; bytes in pieces as a stream |
| `packed` | what gzip, bzip2, xz, zstd and zip have packed |
| `detecting` | which format a file has, by its first line; whether its records can be meant |
| `first`, `texts` | what the first records have to show; what looks like a reference, and texts on one line |
| `lines` | lines of a key, a tab and a reference, as `olr batch` splits them |
| `tables` | CSV, with the separator that the header shows |
| `documents`, `members` | JSON: lines, sequences and documents; the members of records |
| `paths`, `walking` | paths to members of JSON; JSON as a stream, with the place of each part |
| `looking` | where a file of JSON has its references, if that wasn't said |
| `elements` | XML: one of the next two, and whether the key is there |
| `openlr_elements`, `named_elements` | messages of DATEX II and of OpenLR's own schema; those of any XML, by names |
| `openlr_references`, `openlr_forms`, `openlr_words` | references among elements; one in element form; the names and words of both schemas |
| `openlr_shapes` | references whose elements are those of others before them, without the parser |
| `keeping` | what is kept of a record of XML |
| `kinds` | of which kind members are that are kept, and their values by it |
| `markup` | XML as a stream of elements: what is broken or refused |
| `binary` | files that are no text, by their first bytes |
| `layers`, `sheets`, `columns` | GeoPackages and Shapefiles; workbooks; columns of all tables |
| `reading` | all of these as messages, one after the other |
| `message_file` | a file that is looked through before anything is asked: how many messages there are, and what is kept of them |
| `finding` | one of them, by its key or its number |
"""
