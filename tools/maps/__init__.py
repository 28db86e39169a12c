"""Type maps for tests, fuzzing, measuring and the comparison with the Rust.

    drawn       random maps, the names few and the records of all kinds
    flavours    random maps by flavour: each makes one corner likely
    small       all small maps of a family
    hyphens     maps of words with hyphens: all small ones of a family, and any map respelled
    changed     relisted, damaged and rebuilt maps and sheets
    loads       maps by family and number of types
    large       maps at the limits of document 01
    records     records written briefly
    shapes      what families and large maps share
    schedules   packed schedules drawn without a sheet, and damaged records

For one seed a map stays what it is, byte for byte: stored cases were drawn with these.
"""
