import tiswenor

with tiswenor.DB("/tmp/fruit", create_if_missing=True) as db:
    with db.write_batch() as batch:
        batch.put(b"apple", b"red")
        batch.put(b"banana", b"yellow")
    print("apple is", db.get(b"apple"))
    for key, value in db.iterator(prefix=b"b"):
        print(key, "is", value)
