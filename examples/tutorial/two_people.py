from cigrelk import OffPredicate, Server, Stale

with Server("shop.db") as server:
    packing = server["packing_list"]             # a view that exists already
    ann, bob = packing.read(), packing.read()    # two people read the same version

    line = next(row for row in bob if row["line_id"] == 1)
    print(packing.edit(remove=[line], add=[{**line, "quantity": 3}], on=bob))

    line = next(row for row in ann if row["line_id"] == 2)
    try:
        packing.edit(remove=[line], add=[{**line, "quantity": 1}], on=ann)
    except Stale as refusal:
        print("Ann:", refusal)

    def one_teapot(rows):                        # gives the rows to remove and the rows to add
        old = [row for row in rows if row["line_id"] == 2]
        return old, [{**row, "quantity": 1} for row in old]

    print(packing.change(one_teapot))            # reads, edits, and repeats both if the edit was stale
    print(server["order_lines"].find("order_id", 100))

    try:
        packing.edit(add=[{**line, "line_id": 9, "quantity": 0}])
    except OffPredicate as refusal:
        print(type(refusal).__name__, refusal.error)
