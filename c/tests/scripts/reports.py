"""The reports of the tests of expectations, as another program reads them: reports.py ROOM."""
import json, sys, xml.etree.ElementTree
room = sys.argv[1]
rows = [json.loads(line) for line in open(room + "/expects.json")]
assert rows[-1]["event"] == "End" and rows[-1]["status"] == 0 and rows[-1]["unmet"] == 0, rows[-1]
assert any(row["event"] == "Told" and row["id"] == "KZ0101" for row in rows)
told = [row for row in map(json.loads, open(room + "/leaks.json")) if row["event"] == "Told"]
once = {"id": "KZ0102", "telling": "mistake", "name": "leaks", "instance": "i0", "callback": "preoperation", "operation": "o4", "major": "IRP_MJ_READ", "began": "read 1 0 4", "began_line": 6, "path": "twice", "source": "leaks.c:84"}
assert {name: told[0][name] for name in once} == once, told[0]
# A leak is told at the end, and says where it was taken.
left = [row for row in told if row["id"] == "KZ0141"]
assert len(left) == 1 and left[0]["routine"] == "ExAllocatePoolWithTag" and left[0]["source"] == "leaks.c:112" and left[0]["callback"] == "entry" and left[0]["object"].startswith("0x"), left
met = xml.etree.ElementTree.parse(room + "/expects.xml").getroot()
assert met.tag == "testsuite" and met.get("failures") == "0" and len(met) == int(met.get("tests"))
unmet = xml.etree.ElementTree.parse(room + "/unmet.xml").getroot()
assert unmet.get("failures") == "1" and [case.get("name") for case in unmet if len(case)] == ["line 2: expect"]

# A document of SARIF: what its schema requires of each object is there, each result's rule is one, and places are where they should be.
sarif = json.load(open(room + "/found.sarif"))
assert sarif["version"] == "2.1.0" and len(sarif["runs"]) == 1
driver, results = sarif["runs"][0]["tool"]["driver"], sarif["runs"][0]["results"]
assert driver["name"] and all(rule["id"] and rule["shortDescription"]["text"] and rule["help"]["text"] and rule["defaultConfiguration"]["level"] in ("error", "note") for rule in driver["rules"])
for one in results:
    assert one["ruleId"] in [rule["id"] for rule in driver["rules"]] and one["message"]["text"] and one["level"] in ("none", "note", "warning", "error"), one
    for where in one["locations"] + one.get("relatedLocations", []):
        at = where["physicalLocation"]
        assert at["artifactLocation"]["uri"] and not set(at["artifactLocation"]["uri"]) & set(' <>"{}|\\^`') and at["region"]["startLine"] >= 1, at
seen = [(one["ruleId"], one["locations"][0]["physicalLocation"]["artifactLocation"]["uri"].rsplit("/", 1)[-1], one["locations"][0]["physicalLocation"]["region"]["startLine"]) for one in results]
assert seen == [("expect", "found%20it.txt", 9), ("KZ0151", "first.c", 12), ("CRASH", "crash.c", 13)], seen
assert results[1]["relatedLocations"][0]["physicalLocation"]["region"]["startLine"] == 4
found = xml.etree.ElementTree.parse(room + "/found.xml").getroot()
assert found.get("failures") == "1"
failed = [case for case in found if len(case)]
assert [(case.get("name"), case.get("file").rsplit("/", 1)[-1], case.get("line")) for case in failed] == [("line 4: KZ0151", "first.c", "12")] and float(failed[0].get("time")) >= 0
