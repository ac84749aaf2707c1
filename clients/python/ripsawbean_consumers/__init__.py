"""Programs that keep rows of a Ripsawbean database in other software, exactly once, and compare them with it.

    ripsawbean-consumer redis http://127.0.0.1:7077 prices redis://127.0.0.1:6379 price/ price0

A target keeps rows in software of its own, and beside them the place that it has reached. It has

    failures         what it raises where its software can't serve
    load()           the Place that is stored, or None
    store(batch)     in ONE transaction: raises Outrun where the place stored is not `batch.was`; empties the target where
                     `batch.reset`; takes in `batch.changes`; stores `batch.place`
    rows()           the rows, by rising keys, read bit by bit while others store
    look(keys)       the Place and the rows of these keys, both of one moment
    close()

`following` runs a target, and `compare` compares one with the database.
"""
