"""The package says the same as include/jdr.h: numbers, sentences, kinds and the version."""

import ctypes
import re
import unittest

import committed
import jdr
from jdr import calls, numbers, parts

NAMED = {name: int(value) for name, value in re.findall(r"\bJDR_(\w+)\s*=\s*(\d+)", committed.HEADER)}


class Header(unittest.TestCase):
    """include/jdr.h"""

    def test_numbers_have_the_same_names(self):
        mine = {name: value for name, value in vars(numbers).items() if isinstance(value, int)}
        enums = [member for enum in (parts.Kind, parts.Which, parts.Space, parts.Form) for member in enum]
        named = {name: value for name, value in NAMED.items() if name in mine}
        self.assertEqual(mine, named)
        others = {name: value for name, value in NAMED.items() if name not in mine}
        self.assertEqual(sorted(others.values()), sorted(int(member) for member in enums))
        for member in enums:
            wanted = member.name + ("_PAINT" if isinstance(member, parts.Which) else "")
            self.assertEqual(others[wanted], member)

    def test_sentences_are_the_same(self):
        sentences = re.findall(r'case JDR_(\w+): return "(.*)";', committed.HEADER)
        rows = {"NO_ROW", "NO_PART"}
        self.assertEqual({NAMED[name]: said for name, said in sentences if name not in rows}, numbers.MESSAGES)
        for name, said in sentences:
            self.assertEqual(numbers.refused_row(NAMED[name]).message == said, name in rows or NAMED[name] not in (6, 7))
        self.assertIn(f'default: return "{numbers.UNKNOWN}";', committed.HEADER)

    def test_a_session_has_the_same_fields(self):
        declared = re.search(r"^struct jdr_session \{\n(.*?)^\};", committed.HEADER, re.M | re.S).group(1)
        kinds = {"uint32_t": ctypes.c_uint32, "uint64_t": ctypes.c_uint64, "uint8_t": ctypes.c_uint8}
        fields = []
        for kind, names in re.findall(r"^ +(\w+) (.*);$", declared, re.M):
            for name, count in re.findall(r"(\w+)(?:\[(\d+)\])?(?:, |$)", names):
                fields.append((name, kinds[kind] * int(count) if count else kinds[kind]))
        self.assertEqual(calls.SessionStruct._fields_, fields)
        self.assertEqual(ctypes.sizeof(calls.SessionStruct), 328)

    def test_limits_and_versions_are_the_same(self):
        defined = dict(re.findall(r"#define JDR_(\w+) \"?([\d.]+)", committed.HEADER))
        self.assertEqual(int(defined["ROW_WORDS"]), calls.ROW_WORDS)
        parts_of_version = [defined[f"LIBRARY_{part}"] for part in ("MAJOR", "MINOR", "PATCH")]
        self.assertEqual(".".join(parts_of_version), defined["LIBRARY_VERSION"])
        project = (committed.REPOSITORY / "bindings/python/pyproject.toml").read_text()
        self.assertIn(f'version = "{jdr.__version__}"', project)
        self.assertEqual(jdr.__version__, defined["LIBRARY_VERSION"])
        self.assertTrue(jdr._library.INSTALLED.endswith(f".so.{defined['LIBRARY_MAJOR']}"))


if __name__ == "__main__":
    unittest.main()
