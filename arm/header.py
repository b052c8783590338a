"""include/fstf.h as clang reads it: its structs and its calls, all of them, so that nobody keeps a list.

    arm/header.py HEADER.json    a C file that says each struct's size and names each call, from what `clang -Xclang -ast-dump=json` wrote
"""
import json
import sys


class Header:
    """`structs`: by name, the members as (type, name). `calls`: by name, the answer's type and the parameters as (type, name)."""

    def __init__(self, path):
        with open(path) as file:
            declared = json.load(file)["inner"]
        records, self.structs, self.calls = {}, {}, {}
        for node in declared:
            inner = node.get("inner", [])
            if node["kind"] == "RecordDecl":
                records[node["id"]] = [typed(member) for member in inner if member["kind"] == "FieldDecl"]
            elif node["kind"] == "TypedefDecl" and node["name"].startswith("Fstf"):
                self.structs[node["name"]] = records[inner[0]["decl"]["id"]]
            # what the header itself defines, the names of the refusals, is no call of the library
            elif node["kind"] == "FunctionDecl" and node.get("storageClass") != "static":
                answer = node["type"]["qualType"].split(" (")[0]
                self.calls[node["name"]] = answer, [typed(taken) for taken in inner if taken["kind"] == "ParmVarDecl"]


def typed(node):
    return node["type"]["qualType"], node["name"]


def main(path):
    header = Header(path)
    print('#include "fstf.h"')
    for struct in header.structs:
        print(f"const uint64_t size_{struct} = sizeof({struct});")
    print("void *const calls[] = {" + ", ".join(f"(void *){call}" for call in header.calls) + "};")


if __name__ == "__main__":
    main(*sys.argv[1:])
