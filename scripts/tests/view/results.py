"""What SARIF and the page must have of each example, written by hand from its source and its report."""

# The steps of a path: line, first column and the one behind the last, depth of calls, function, what happens.
STACK = [
    (25, 22, 26, 0, "main", "call of push"),
    (10, 24, 30, 1, "push", "a block is allocated"),
    (11, 13, 15, 1, "push", "the condition is false"),
    (12, 8, 10, 1, "push", "access to a block"),
    (13, 8, 10, 1, "push", "access to a block"),
    (25, 22, 26, 0, "main", "return from push"),
    (26, 11, 13, 0, "main", "the condition is false"),
    (28, 9, 12, 0, "main", "call of pop"),
    (19, 27, 29, 1, "pop", "access to a block"),
    (20, 3, 7, 1, "pop", "free of a block"),
    (28, 9, 12, 0, "main", "return from pop"),
    (29, 3, 7, 0, "main", "double free"),
]
RECORDS_NULL = [
    (8, 25, 26, 0, "last_key", "the condition is true"),
    (8, 3, 6, 0, "last_key", "an iteration of the loop begins"),
    (9, 28, 34, 0, "last_key", "the allocation failed: null"),
    (10, 15, 17, 0, "last_key", "the condition is true"),
    (11, 7, 11, 0, "last_key", "free of null"),
    (18, 14, 16, 0, "last_key", "null dereference"),
]
RECORDS_FREED = [
    (8, 25, 26, 0, "last_key", "the condition is true"),
    (8, 3, 6, 0, "last_key", "an iteration of the loop begins"),
    (9, 28, 34, 0, "last_key", "a block is allocated"),
    (10, 15, 17, 0, "last_key", "the condition is false"),
    (14, 10, 12, 0, "last_key", "access to a block"),
    (15, 10, 12, 0, "last_key", "access to a block"),
    (8, 25, 26, 0, "last_key", "the condition is true"),
    (8, 3, 6, 0, "last_key", "an iteration of the loop begins"),
    (9, 28, 34, 0, "last_key", "the allocation failed: null"),
    (10, 15, 17, 0, "last_key", "the condition is true"),
    (11, 7, 11, 0, "last_key", "free of a block"),
    (18, 14, 16, 0, "last_key", "use after free"),
]
TABLE = [
    (38, 25, 34, 0, "main", "call of new_table"),
    (15, 25, 31, 1, "new_table", "a block is allocated"),
    (16, 13, 15, 1, "new_table", "the condition is false"),
    (17, 8, 10, 1, "new_table", "access to a block"),
    (18, 8, 10, 1, "new_table", "access to a block"),
    (38, 25, 34, 0, "main", "return from new_table"),
    (39, 13, 15, 0, "main", "the condition is false"),
    (40, 27, 30, 0, "main", "call of add"),
    (24, 26, 32, 1, "add", "a block is allocated"),
    (25, 13, 15, 1, "add", "the condition is false"),
    (26, 8, 10, 1, "add", "access to a block"),
    (27, 22, 24, 1, "add", "access to a block"),
    (27, 8, 10, 1, "add", "access to a block"),
    (28, 8, 10, 1, "add", "access to a block"),
    (29, 8, 10, 1, "add", "access to a block"),
    (29, 8, 10, 1, "add", "access to a block"),
    (40, 27, 30, 0, "main", "return from add"),
    (41, 14, 16, 0, "main", "the condition is false"),
    (42, 3, 6, 0, "main", "call of use"),
    (34, 9, 11, 1, "use", "uninitialised read"),
]
TREE = [
    (26, 23, 27, 0, "main", "call of leaf"),
    (10, 24, 30, 1, "leaf", "a block is allocated"),
    (11, 13, 15, 1, "leaf", "the condition is false"),
    (12, 8, 10, 1, "leaf", "access to a block"),
    (13, 8, 10, 1, "leaf", "access to a block"),
    (14, 8, 10, 1, "leaf", "access to a block"),
    (26, 23, 27, 0, "main", "return from leaf"),
    (27, 12, 14, 0, "main", "the condition is false"),
    (28, 16, 20, 0, "main", "call of leaf"),
    (10, 24, 30, 1, "leaf", "the allocation failed: null"),
    (11, 13, 15, 1, "leaf", "the condition is true"),
    (28, 16, 20, 0, "main", "return from leaf"),
    (28, 7, 9, 0, "main", "access to a block"),
    (29, 10, 22, 0, "main", "call of without_root"),
    (20, 3, 7, 1, "without_root", "free of a block"),
    (21, 11, 13, 1, "without_root", "use after free"),
]
LIST = [(10, 24, 30, 0, "push", "the allocation failed: null"), (11, 8, 10, 0, "push", "null dereference")]

# Of each example its results: the rule and its number, the function, the place of the error, the steps.
RESULTS = {
    "counter": [],
    "journal": [],
    "queue": [],
    "list": [("null-dereference", 0, "push", (11, 8, 10), LIST)],
    "record_list": [
        ("null-dereference", 0, "last_key", (18, 14, 16), RECORDS_NULL),
        ("use-after-free", 1, "last_key", (18, 14, 16), RECORDS_FREED),
    ],
    "stack": [("double-free", 2, "main", (29, 3, 7), STACK)],
    "table": [("uninitialised-read", 3, "main", (34, 9, 11), TABLE)],
    "tree": [("use-after-free", 1, "main", (21, 11, 13), TREE)],
}
