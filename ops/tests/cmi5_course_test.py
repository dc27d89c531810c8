#!/usr/bin/env python3
"""Tests of ops/cmi5-course. What is expected follows from cmi5 Quartz (sections 13 and 14), from "Courses" in
docs/FORMATS.md and from the rules K1 to K12 in docs/ERRORS.md. The packages are made here.

usage: ops/tests/cmi5_course_test.py
"""
import contextlib
import importlib.machinery
import importlib.util
import io
import json
import os
import re
import resource
import struct
import subprocess
import sys
import tempfile
import unittest
import zipfile

TOOL = os.path.join(os.path.dirname(os.path.abspath(__file__)), "..", "cmi5-course")
LOADER = importlib.machinery.SourceFileLoader("cmi5_course", TOOL)
COURSE_TOOL = importlib.util.module_from_spec(importlib.util.spec_from_loader("cmi5_course", LOADER))
sys.dont_write_bytecode = True
LOADER.exec_module(COURSE_TOOL)

NAMESPACE = "https://w3id.org/xapi/profiles/cmi5/v1/CourseStructure.xsd"
BASE = "https://content.example/p/"

COURSE = '<course id="https://p.example/c"><title><langstring lang="en">C</langstring></title></course>'
TITLE = '<title><langstring lang="en">T</langstring></title>'


def structure(body, course=COURSE):
    declaration = '<?xml version="1.0" encoding="utf-8"?>'
    return f'{declaration}\n<courseStructure xmlns="{NAMESPACE}">{course}{body}</courseStructure>'


def unit(attributes="", inside="", id="https://p.example/u", url="<url>https://au.example/u</url>"):
    return f'<au id="{id}" {attributes}>{TITLE}{url}{inside}</au>'


def block(children, id="https://p.example/b", inside=TITLE):
    return f'<block id="{id}">{inside}{children}</block>'


def package(text, name="cmi5.xml", others=(), method=zipfile.ZIP_DEFLATED):
    file = io.BytesIO()
    with zipfile.ZipFile(file, "w", method) as made:
        made.writestr(name, text)
        for other in others:
            made.writestr(other, "")
    return file.getvalue()


def small_memory():
    resource.setrlimit(resource.RLIMIT_AS, (250_000_000, 250_000_000))


class Case(unittest.TestCase):
    def setUp(self):
        folder = tempfile.TemporaryDirectory(prefix="a course ")
        self.addCleanup(folder.cleanup)
        self.folder = folder.name

    def write(self, content):
        path = os.path.join(self.folder, "a package")
        with open(path, "wb") as file:
            file.write(content.encode() if isinstance(content, str) else content)
        return path

    def run_tool(self, content, *words):
        """What the program does over a file of this content, in this process."""
        return self.run_words(self.write(content), *words)

    def run_words(self, *words):
        printed = io.TextIOWrapper(io.BytesIO(), encoding="ascii")
        told = io.StringIO()
        with contextlib.redirect_stdout(printed), contextlib.redirect_stderr(told):
            try:
                status = COURSE_TOOL.main(words)
            except SystemExit as end:
                status = end.code
        printed.flush()
        return status, printed.buffer.getvalue().decode(), told.getvalue()

    def run_program(self, content, **options):
        """The same in a process of its own."""
        given = {"stdout": subprocess.PIPE, **options}
        words = [TOOL, self.write(content)]
        done = subprocess.run(words, stderr=subprocess.PIPE, timeout=300, check=False, **given)
        told = done.stderr.decode()
        self.assertNotIn("Traceback", told)
        return done.returncode, (done.stdout or b"").decode(), told

    def printed(self, content, *words):
        """The line that the program prints, and what it tells."""
        status, line, told = self.run_tool(content, *words)
        self.assertEqual((status, line[-1:], line.count("\n")), (0, "\n", 1), told)
        return line[:-1], told

    def course(self, content, *words):
        line, told = self.printed(content, *words)
        self.assertEqual(told, "")
        return json.loads(line)

    def first_unit(self, content, *words):
        return self.course(content, *words)["children"][0]

    def refused(self, content, *words):
        """What the program tells where it prints nothing."""
        status, line, told = self.run_tool(content, *words)
        self.assertEqual((status, line), (1, ""), told)
        self.assertTrue(told.startswith("cmi5-course: "), told)
        return told


class Courses(Case):
    WHOLE = f"""<?xml version="1.0" encoding="utf-8"?>
<courseStructure xmlns="{NAMESPACE}" xmlns:xsi="http://www.w3.org/2001/XMLSchema-instance"
    xsi:schemaLocation="{NAMESPACE} CourseStructure.xsd">
  <course id="https://p.example/geology">
    <title>
      <langstring lang="en-US">Geology</langstring>
      <langstring lang="de">Geologie: Gesteine</langstring>
    </title>
    <description><langstring lang="en-US">Stones &amp; more</langstring></description>
  </course>
  <au id="https://p.example/first">
    <title><langstring lang="en-US">First</langstring></title>
    <description><langstring lang="en-US">The beginning</langstring></description>
    <url>https://au.example/first?lang=en#top</url>
  </au>
  <block id="https://p.example/outer">
    <title><langstring lang="en-US">Outer</langstring></title>
    <description><langstring lang="en-US">Two inside</langstring></description>
    <block id="https://p.example/inner">
      <title><langstring lang="en-US">Inner</langstring></title>
      <description><langstring lang="en-US">One inside</langstring></description>
      <au id="https://p.example/deep" moveOn="CompletedAndPassed" masteryScore="0.80" launchMethod="OwnWindow"
          activityType="http://adlnet.gov/expapi/activities/assessment">
        <title><langstring lang="en-US">Deep</langstring></title>
        <description><langstring lang="en-US">A test</langstring></description>
        <url>deep/index.html</url>
        <launchParameters>{{"level": 3}}</launchParameters>
        <entitlementKey>key 1</entitlementKey>
      </au>
    </block>
    <au id="https://p.example/beside" moveOn="Completed" launchMethod="AnyWindow">
      <title><langstring lang="en-US">Beside</langstring></title>
      <description><langstring lang="en-US">After the inner block</langstring></description>
      <url>beside.html</url>
    </au>
  </block>
</courseStructure>
"""
    WANTED = {
        "id": "https://p.example/geology",
        "title": {"en-US": "Geology", "de": "Geologie: Gesteine"},
        "description": {"en-US": "Stones & more"},
        "children": [
            {
                "kind": "unit",
                "id": "https://p.example/first",
                "title": {"en-US": "First"},
                "description": {"en-US": "The beginning"},
                "url": "https://au.example/first?lang=en#top",
            },
            {
                "kind": "block",
                "id": "https://p.example/outer",
                "title": {"en-US": "Outer"},
                "description": {"en-US": "Two inside"},
                "children": [
                    {
                        "kind": "block",
                        "id": "https://p.example/inner",
                        "title": {"en-US": "Inner"},
                        "description": {"en-US": "One inside"},
                        "children": [
                            {
                                "kind": "unit",
                                "id": "https://p.example/deep",
                                "title": {"en-US": "Deep"},
                                "description": {"en-US": "A test"},
                                "url": "https://content.example/p/deep/index.html",
                                "moveOn": "CompletedAndPassed",
                                "masteryScore": 0.8,
                                "launchMethod": "OwnWindow",
                                "launchParameters": '{"level": 3}',
                                "entitlementKey": "key 1",
                                "activityType": "http://adlnet.gov/expapi/activities/assessment",
                            }
                        ],
                    },
                    {
                        "kind": "unit",
                        "id": "https://p.example/beside",
                        "title": {"en-US": "Beside"},
                        "description": {"en-US": "After the inner block"},
                        "url": "https://content.example/p/beside.html",
                        "moveOn": "Completed",
                        "launchMethod": "AnyWindow",
                    },
                ],
            },
        ],
    }

    def test_a_whole_package(self):
        files = ("deep/index.html", "beside.html")
        self.assertEqual(self.course(package(self.WHOLE, others=files), "--base", BASE), self.WANTED)

    def test_a_structure_by_itself(self):
        self.assertEqual(self.course(self.WHOLE, "--base", BASE), self.WANTED)

    def test_a_stored_package_and_words_in_any_order(self):
        path = os.path.join(self.folder, "stored.zip")
        with open(path, "wb") as file:
            file.write(package(structure(unit()), method=zipfile.ZIP_STORED))
        status, line, _ = self.run_words(f"--base={BASE}", path)
        self.assertEqual((status, json.loads(line)["id"]), (0, "https://p.example/c"))

    def test_the_order_of_units_and_blocks_stays(self):
        ids = [f"https://p.example/{i}" for i in range(4)]
        body = unit(id=ids[0]) + block(unit(id=ids[2]), id=ids[1]) + unit(id=ids[3])
        children = self.course(structure(body))["children"]
        self.assertEqual([child["id"] for child in children], [ids[0], ids[1], ids[3]])
        self.assertEqual([child["kind"] for child in children], ["unit", "block", "unit"])

    def test_a_prefix_for_the_namespace(self):
        text = structure(unit()).replace("<", "<c:").replace("<c:/", "</c:").replace("<c:?", "<?")
        text = text.replace("xmlns=", "xmlns:c=")
        self.assertEqual(self.course(text), self.course(structure(unit())))

    def test_texts(self):
        text = """<title><langstring lang="en">
            Fire &amp; <!-- and --><![CDATA[<smoke>]]> "\\" &#x1F525;
          </langstring><langstring lang="es-419">\u706b</langstring><langstring lang="x">  </langstring></title>"""
        made = self.course(structure(unit(), course=f'<course id="https://p.example/c">{text}</course>'))
        self.assertEqual(made["title"], {"en": 'Fire & <smoke> "\\" \U0001f525', "es-419": "\u706b", "x": ""})

    def test_parameters_and_keys_stay_as_they_are(self):
        inside = "<launchParameters>\n a=1&amp;b </launchParameters><entitlementKey/>"
        made = self.first_unit(structure(unit(inside=inside)))
        self.assertEqual((made["launchParameters"], made["entitlementKey"]), ("\n a=1&b ", ""))

    def test_white_space_around_addresses_and_numbers(self):
        body = unit('masteryScore=" 0.5 "', id=" https://p.example/u\n", url="<url>\n  https://au.example/u\n</url>")
        made = self.first_unit(structure(body))
        wanted = ("https://p.example/u", "https://au.example/u", 0.5)
        self.assertEqual((made["id"], made["url"], made["masteryScore"]), wanted)

    def test_every_word(self):
        for word in ("NotApplicable", "Passed", "Completed", "CompletedAndPassed", "CompletedOrPassed"):
            self.assertEqual(self.first_unit(structure(unit(f'moveOn="{word}"')))["moveOn"], word)
        for word in ("OwnWindow", "AnyWindow"):
            self.assertEqual(self.first_unit(structure(unit(f'launchMethod="{word}"')))["launchMethod"], word)

    def test_scores_keep_their_spelling(self):
        spellings = {"0.8": "0.8", "0.80": "0.80", "1": "1", "1.000": "1.000", "0": "0", "-0": "-0", "0.0": "0.0"}
        # decimals of XML Schema that JSON can't spell so
        spellings |= {".8": "0.8", "1.": "1", "+0.5": "0.5", "00.25": "0.25", "+.0": "0.0", "-.0": "-0.0"}
        spellings["0.1234567890123456789012345678901234"] = "0.1234567890123456789012345678901234"
        for given, wanted in spellings.items():
            with self.subTest(given):
                line, told = self.printed(structure(unit(f'masteryScore="{given}"')))
                self.assertEqual((re.search('"masteryScore":([^,}]*)', line)[1], told), (wanted, ""))

    def test_the_output_is_utf_8_in_any_locale(self):
        text = structure(unit(), course=COURSE.replace(">C<", ">\u00dcbung<"))
        status, line, _ = self.run_program(text, env={**os.environ, "LC_ALL": "C", "PYTHONUTF8": "0"})
        self.assertEqual(status, 0)
        self.assertIn('"title":{"en":"\u00dcbung"}', line)


class Encodings(Case):
    def test_the_encodings_of_xml(self):
        text = structure(unit(), course=COURSE.replace(">C<", ">\u00dcbung<"))
        utf_16 = text.replace("utf-8", "utf-16")
        for name, data in {
            "a byte order mark": text.encode("utf-8-sig"),
            "UTF-16, little end first": b"\xff\xfe" + utf_16.encode("utf-16-le"),
            "UTF-16, big end first": b"\xfe\xff" + utf_16.encode("utf-16-be"),
            "Latin-1": text.replace("utf-8", "iso-8859-1").encode("latin-1"),
            "Windows": text.replace("utf-8", "windows-1252").encode("cp1252"),
        }.items():
            with self.subTest(name):
                self.assertEqual(self.course(data)["title"], {"en": "\u00dcbung"})
                self.assertEqual(self.course(package(data))["title"], {"en": "\u00dcbung"})

    def test_what_is_in_no_encoding(self):
        for name, data in {
            "an unknown one": structure(unit()).replace("utf-8", "utf-99").encode(),
            "another one than is said": structure(unit()).replace("utf-8", "utf-16").encode(),
            "no UTF-8": structure(unit()).replace(">C<", ">\u00dcbung<").encode("latin-1"),
            "one of several bytes": structure(unit()).replace("utf-8", "shift_jis").encode(),
        }.items():
            with self.subTest(name):
                self.refused(data)


class Addresses(Case):
    def address(self, url, *words):
        return self.first_unit(structure(unit(url=f"<url>{url}</url>")), *words)["url"]

    def test_relative_addresses(self):
        for given, wanted in {
            "index.html": "index.html",
            "u1/index.html?lang=en&amp;x=1#page": "u1/index.html?lang=en&x=1#page",
            "./u1/../index.html": "index.html",
            "u1/..": "",
            "u1/.": "u1/",
            "u1\\index.html": "u1/index.html",
            "u1/%2E%2e/index.html": "index.html",
            "?page=1": "?page=1",
            "index.html?next=../../x": "index.html?next=../../x",
            "a%20b/\u00fc.html": "a%20b/\u00fc.html",
        }.items():
            with self.subTest(given):
                self.assertEqual(self.address(given, "--base", BASE), BASE + wanted)

    def test_absolute_addresses_stay_as_they_are(self):
        for given in (
            "https://au.example/u",
            "HTTP://EXAMPLE.com/U",
            "http://au.example:8443/u?Endpoint=1&amp;x=endpoint#?fetch=1",
            "http://[2001:db8::1]:80/u",
            "http://127.0.0.1/u",
            "http://%61u.example/u",
            "http://0x7f.1/u",
            "http://0x/u",
            "http://b\u00fccher.example/\u00fc",
            "http://user@au.example/u",
            "https://au.example/a b",
        ):
            with self.subTest(given):
                self.assertEqual(self.address(given), given.replace("&amp;", "&"))
                self.assertEqual(self.address(given, "--base", BASE), given.replace("&amp;", "&"))

    def test_relative_addresses_need_a_base(self):
        for given in ("index.html", "?x=1", "#x", "./x"):
            with self.subTest(given):
                told = self.refused(structure(unit(url=f"<url>{given}</url>")))
                self.assertIn("courseStructure/au/url: ", told)
                self.assertIn("--base", told)

    def test_relative_addresses_stay_in_the_package(self):
        for given in ("../x", "u/../../x", "/x", "//other.example/x", "\\x", "..\\x", "u/%2e./.%2E/x", "/", ".."):
            with self.subTest(given):
                told = self.refused(structure(unit(url=f"<url>{given}</url>")), "--base", BASE)
                self.assertIn("courseStructure/au/url: ", told)
                self.assertIn("out of the package", told)

    def test_addresses_that_the_desk_refuses(self):
        for given in (
            "",
            "ftp://a/u",
            "mailto:a@b",
            "file:///u",
            "javascript:x",
            "http://",
            "http:",
            "http://a b/u",
            "https://a:99999/",
            "https://a:x/",
            "http://a%2Fb/",
            "http://%ff/",
            "http://[::1/",
            "http://[1]/",
            "http://1.2.3.256/",
            "http://user@/u",
            "http://a/u?endpoint=x",
            "http://a/u?x=1&amp;fetch=",
            "http://a/u?actor",
            "http://a/u?%72egistration=1",
            "http://a/u?x&amp;activity%49d=1#f",
            "index.html?fetch=1",
        ):
            with self.subTest(given):
                told = self.refused(structure(unit(url=f"<url>{given}</url>")), "--base", BASE)
                self.assertRegex(told, r"^cmi5-course: line 2, courseStructure/au/url: .*\(K10\)\n$")

    def test_files_that_the_package_lacks(self):
        text = structure(
            unit(id="https://p.example/1", url="<url>there%20is.html?x=1</url>")
            + unit(id="https://p.example/2", url="<url>gone.html</url>")
            + unit(id="https://p.example/3", url="<url>folder/</url>")
        )
        line, told = self.printed(package(text, others=("there is.html",)), "--base", BASE)
        self.assertEqual(len(json.loads(line)["children"]), 3)
        wanted = "line 2, courseStructure/au[2]/url: the package has no file at this address"
        self.assertEqual(told, f"cmi5-course: {wanted}\n")


class LeftOut(Case):
    def test_each_kind_is_told_with_its_first_place(self):
        objective = f'<objective id="https://p.example/o">{TITLE}</objective>'
        reference = '<objective idref="https://p.example/o"/>'
        text = structure(
            f"\n<objectives>{objective}</objectives>"
            + f'\n<block id="https://p.example/b">{TITLE}<objectives>{reference}</objectives>'
            + '\n<au xmlns:v="http://v.example/ns" id="https://p.example/u" v:size="3" xml:lang="en">'
            + "<title><langstring>T</langstring></title><description/><url>https://au.example/u</url>"
            + '\n<v:thing id="x"><v:more><url>y</url></v:more></v:thing><v:thing/></au></block>'
        )
        line, told = self.printed(text)
        wanted_unit = {
            "kind": "unit",
            "id": "https://p.example/u",
            "title": {"und": "T"},
            "url": "https://au.example/u",
        }
        wanted_block = {
            "kind": "block",
            "id": "https://p.example/b",
            "title": {"en": "T"},
            "children": [wanted_unit],
        }
        self.assertEqual(
            json.loads(line), {"id": "https://p.example/c", "title": {"en": "C"}, "children": [wanted_block]}
        )
        au = "line 5, courseStructure/block/au"
        for wanted in (
            "line 3, courseStructure/objectives: left out: the desk has no objectives (2 times, this is the first)",
            f"{au}: left out: the attribute size of the namespace 'http://v.example/ns'",
            f"{au}: left out: the attribute lang of the namespace 'http://www.w3.org/XML/1998/namespace'",
            f"{au}: left out: the element thing of the namespace 'http://v.example/ns' (2 times, this is the first)",
            f"{au}/description: left out: a description without a langstring",
            f"{au}/title/langstring: it has no lang: its language is und, which means undetermined",
        ):
            self.assertIn(f"cmi5-course: {wanted}\n", told)
        self.assertEqual(told.count("\n"), 6)


class Refusals(Case):
    U = "https://p.example/u"

    def test_each_fault_is_told_by_its_place_and_rule(self):
        long_digits = "0." + "1" * 35
        two = unit() + unit(id="https://p.example/v")
        language = '<langstring lang="{}">T</langstring>'
        titled = '<au id="https://p.example/u"><title>{}</title><url>https://au.example/u</url></au>'
        untitled = '<course id="https://p.example/c"/>'
        cases = [
            (structure(unit(), course=""), "courseStructure: it has no course", "K1"),
            (structure(unit(), course=COURSE.replace(' id="https://p.example/c"', "")), "/course: it has no id", "K1"),
            (structure(unit(), course=untitled), "/course: it has no title", "K1"),
            (structure(unit(), course=COURSE + COURSE), "/course[2]: ", None),
            (structure(f"<au>{TITLE}<url>https://a/</url></au>"), "courseStructure/au: it has no id", "K2"),
            (structure('<au id="https://p.example/u"><url>https://a/</url></au>'), "/au: it has no title", "K2"),
            (structure(unit(url="")), "courseStructure/au: it has no url", "K2"),
            (structure(block(unit(), inside="")), "courseStructure/block: it has no title", "K2"),
            (structure(unit(id="unit-1")), "courseStructure/au/@id: 'unit-1' is no IRI", "K3"),
            (structure(unit(id="https:")), "courseStructure/au/@id: ", "K3"),
            (structure(unit(id="")), "courseStructure/au/@id: ", "K3"),
            (structure(unit(id="https://p.example/a b")), "courseStructure/au/@id: ", "K3"),
            (structure(unit(id="https://p.example/{u}")), "courseStructure/au/@id: ", "K3"),
            (structure(unit(id="https://p.example/&#x85;u")), "courseStructure/au/@id: ", "K3"),
            (structure(unit(), course=COURSE.replace("https://p.example/c", "c")), "/course/@id: 'c' is no IRI", "K3"),
            (structure(titled.format("")), "courseStructure/au/title: it has no langstring", "K4"),
            (structure(titled.format(language.format("en_US"))), "/title/langstring/@lang: 'en_US' is no", "K4"),
            (structure(titled.format(language.format(""))), "/title/langstring/@lang: '' is no", "K4"),
            (structure(titled.format(language.format("abcdefghi"))), "/title/langstring/@lang: ", "K4"),
            (structure(titled.format(2 * language.format("en"))), "/au/title/langstring[2]: ", "J3"),
            (structure(""), "courseStructure: it has neither an au nor a block", "K5"),
            (structure(block("")), "courseStructure/block: it has neither an au nor a block", "K5"),
            (structure(unit() + block("")), "courseStructure/block: it has neither", "K5"),
            (structure(unit() + "\n" + unit()), "/au[2]/@id: 'https://p.example/u' is the id of line 2, too", "K6"),
            (structure(unit(id="https://p.example/c")), "courseStructure/au/@id: ", "K6"),
            (structure(block(unit(id="https://p.example/b"))), "courseStructure/block/au/@id: ", "K6"),
            (structure(unit('moveOn="passed"')), "courseStructure/au/@moveOn: 'passed' is none of Not", "K7"),
            (structure(unit('moveOn=""')), "courseStructure/au/@moveOn: ", "K7"),
            (structure(unit('masteryScore="1.0001"')), "courseStructure/au/@masteryScore: '1.0001' is no", "K8"),
            (structure(unit('masteryScore="-0.1"')), "courseStructure/au/@masteryScore: ", "K8"),
            (structure(unit('masteryScore="80%"')), "courseStructure/au/@masteryScore: ", "K8"),
            (structure(unit('masteryScore=""')), "courseStructure/au/@masteryScore: ", "K8"),
            (structure(unit('masteryScore="NaN"')), "courseStructure/au/@masteryScore: ", "K8"),
            (structure(unit('masteryScore="8e-1"')), "courseStructure/au/@masteryScore: ", "K8"),
            (structure(unit('masteryScore="\u0661"')), "courseStructure/au/@masteryScore: ", "K8"),
            (structure(unit(f'masteryScore="{long_digits}"')), "courseStructure/au/@masteryScore: ", "J4"),
            (structure(unit(f'masteryScore="0.{"0" * 70}1"')), "courseStructure/au/@masteryScore: ", "J4"),
            (structure(unit('launchMethod="ownWindow"')), "/au/@launchMethod: 'ownWindow' is none of Own", "K9"),
            (structure(unit('activityType="test"')), "courseStructure/au/@activityType: 'test' is no IRI", "K11"),
            (structure(block(two + unit('moveOn="x"', id="https://p.example/w"))), "/block/au[3]/@moveOn: ", "K7"),
        ]
        for number, (text, place, rule) in enumerate(cases):
            with self.subTest(number, place=place):
                told = self.refused(text)
                self.assertEqual(told.count("\n"), 1, told)
                self.assertIn(place, told)
                self.assertEqual(re.findall(r"\(([A-Z]\d+)\)$", told.strip()), [rule] if rule else [])

    def test_what_a_structure_does_not_have(self):
        for name, (text, place) in {
            "a misspelled attribute": (structure(unit('moveon="Passed"')), "courseStructure/au/@moveon: "),
            "a wrong place": (structure(block(unit())).replace("<block", '<block moveOn="Passed"'), "/block/@moveOn: "),
            "an unknown element": (structure(unit(inside="<mastery>1</mastery>")), "courseStructure/au/mastery: "),
            "an element of no namespace": (structure(unit(inside='<x xmlns=""/>')), "courseStructure/au/x: "),
            "a known name": (structure(unit(inside='<description xmlns="">p</description>')), "/au/description: "),
            "a unit in a unit": (structure(unit(inside=unit(id="https://p.example/v"))), "courseStructure/au/au: "),
            "two addresses": (structure(unit(inside="<url>https://a/</url>")), "courseStructure/au/url[2]: "),
            "text between elements": (structure(unit() + "stray"), "courseStructure: it has text of its own: 'stray'"),
            "elements in a text": (structure(unit(url="<url>https://a/<b/></url>")), "courseStructure/au/url/b: "),
        }.items():
            with self.subTest(name):
                told = self.refused(text)
                self.assertEqual(told.count("\n"), 1, told)
                self.assertIn(place, told)

    def test_words_without_a_langstring(self):
        told = self.refused(structure(unit().replace(TITLE, "<title>T</title>")))
        self.assertIn("courseStructure/au/title: it has text of its own: 'T'\n", told)
        self.assertIn("courseStructure/au/title: it has no langstring (K4)\n", told)

    def test_all_faults_are_told_up_to_twenty(self):
        wrong = unit('moveOn="x" masteryScore="2"', url="\n<url/>") + "\n" + unit('launchMethod="x"', id="v")
        told = self.refused(structure(wrong))
        self.assertEqual(re.findall(r"line (\d+),.*\(([A-Z]\d+)\)\n", told), [
            ("2", "K7"), ("2", "K8"), ("3", "K10"), ("4", "K3"), ("4", "K9"),
        ])
        told = self.refused(structure("".join(unit('moveOn="x"', id=f"https://p.example/{i}") for i in range(30))))
        self.assertEqual(told.count("(K7)"), 20)
        self.assertTrue(told.endswith("cmi5-course: 10 more faults\n"), told)

    def test_a_terminal_is_not_written_to_by_a_package(self):
        told = self.refused(structure(unit('moveOn="\u009b2J\u202e"')))
        self.assertIn(r"'\x9b2J\u202e'", told)


class Limits(Case):
    @staticmethod
    def deep(depth):
        body = unit()
        for i in range(1, depth):
            body = block(body, id=f"https://p.example/b{i}")
        return structure(body)

    def test_units(self):
        units = [unit(id=f"https://p.example/{i}") for i in range(1_001)]
        self.assertEqual(len(self.course(structure("".join(units[:1_000])))["children"]), 1_000)
        self.assertIn("courseStructure: it has more than 1000 units", self.refused(structure("".join(units))))
        in_blocks = block("".join(units[:500]), id="https://p.example/a") + block("".join(units[500:]))
        self.assertIn("(K12)", self.refused(structure(in_blocks)))

    def test_depth(self):
        node, depth = self.course(self.deep(16)), 0
        while "children" in node:
            node, depth = node["children"][0], depth + 1
        self.assertEqual(depth, 16)
        told = self.refused(self.deep(17))
        self.assertIn("courseStructure" + 16 * "/block" + "/au: ", told)
        self.assertIn("(K12)", told)

    def test_the_length_of_a_course(self):
        # what the course is printed as without its title, which a request's 4,194,304 bytes leave room for
        rest = len(json.dumps(self.course(structure(unit())), separators=(",", ":"))) - 1
        for length, fits in ((4_194_304 - rest, True), (4_194_305 - rest, False)):
            text = structure(unit(), course=COURSE.replace(">C<", f">{length * 'x'}<"))
            if fits:
                self.assertEqual(len(self.printed(text)[0]), 4_194_304)
            else:
                self.assertIn("4194304", self.refused(text))

    def test_the_length_of_a_structure(self):
        text = structure(unit())
        filled = text + "\n" * (8_388_608 - len(text))
        self.course(filled)
        self.course(package(filled))
        for longer in (filled + "\n", package(filled + "\n")):
            self.assertIn("more than 8388608 bytes", self.refused(longer))

    def test_a_bomb_is_not_unpacked(self):
        bomb = bytearray(package(b" " * 300_000_000))
        self.assertLess(len(bomb), 1_000_000)
        status, line, told = self.run_program(bytes(bomb), preexec_fn=small_memory)
        self.assertEqual((status, line), (1, ""))
        self.assertIn("more than 8388608 bytes", told)

    def test_a_bomb_that_lies_about_its_length(self):
        bomb = bytearray(package(b" " * 50_000_000))
        at = bomb.rindex(b"PK\x01\x02")
        bomb[at + 24 : at + 28] = struct.pack("<L", 100)
        status, line, told = self.run_program(bytes(bomb), preexec_fn=small_memory)
        self.assertEqual((status, line), (1, ""), told)

    def test_many_elements_and_deep_ones(self):
        for name, text in {
            "units without anything": structure("<au/>" * 100_000),
            "blocks in one another": structure("<block>" * 100_000 + "</block>" * 100_000),
            "a vendor's, in one another": structure(
                unit() + '<v:x xmlns:v="http://v.example/">' + "<v:x>" * 100_000 + "</v:x>" * 100_000 + "</v:x>"
            ),
            "attributes": structure(unit(" ".join(f'a{i}="1"' for i in range(50_000)))),
            "the same id": structure("".join(unit() for _ in range(40_000))),
        }.items():
            with self.subTest(name):
                status, _, told = self.run_tool(text)
                self.assertEqual(status, 0 if name.startswith("a vendor") else 1)
                self.assertLess(len(told), 30_000)


class BrokenPackages(Case):
    def test_packages_without_a_structure(self):
        for name, (content, wanted) in {
            "nothing in it": (package("", name="a"), "no cmi5.xml at its root"),
            "an empty zip": (b"PK\x05\x06" + bytes(18), "no cmi5.xml at its root"),
            "in a folder": (package(structure(unit()), name="fire/cmi5.xml"), "it has 'fire/cmi5.xml'"),
            "in capitals": (package(structure(unit()), name="CMI5.XML"), "it has 'CMI5.XML'"),
            "SCORM": (package("", name="imsmanifest.xml"), "SCORM"),
        }.items():
            with self.subTest(name):
                self.assertIn(wanted, self.refused(content))

    def test_two_structures(self):
        file = io.BytesIO()
        with zipfile.ZipFile(file, "w") as made, self.assertWarns(UserWarning):
            made.writestr("cmi5.xml", structure(unit()))
            made.writestr("cmi5.xml", structure(unit()))
        self.assertIn("twice", self.refused(file.getvalue()))

    def test_broken_zip_files(self):
        whole = package(structure(unit()), others=[f"file {i}" for i in range(5)])
        at = whole.index(b"PK\x01\x02")
        encrypted = bytearray(whole)
        encrypted[at + 8] |= 1
        method = bytearray(whole)
        method[at + 10] = method[8] = 14
        unknown = bytearray(whole)
        unknown[at + 10] = 77
        damaged = bytearray(whole)
        damaged[60] ^= 0xFF
        for name, (content, wanted) in {
            "the end is missing": (whole[:-30], "as a zip file"),
            "the middle is missing": (whole[: at // 2], "as a zip file"),
            "the begin alone": (b"PK\x03\x04", "as a zip file"),
            "encrypted": (bytes(encrypted), "encrypted"),
            "LZMA": (bytes(method), "deflate"),
            "an unknown method": (bytes(unknown), "deflate"),
            "a changed byte": (bytes(damaged), ""),
        }.items():
            with self.subTest(name):
                self.assertIn(wanted, self.refused(content))

    def test_every_broken_zip_is_told_without_a_traceback(self):
        """One byte of 60 is changed, then the file is cut: none may end in a traceback or in a status of its own."""
        whole = package(structure(unit()), others=("a",))
        for at in range(0, len(whole), max(1, len(whole) // 60)):
            changed = bytearray(whole)
            changed[at] ^= 0x55
            for content in (bytes(changed), whole[:at]):
                with self.subTest(at, length=len(content)):
                    self.assertIn(self.run_tool(content)[0], (0, 1))

    def test_texts_that_are_no_structure(self):
        namespace = NAMESPACE.replace("v1", "v2")
        for name, (content, wanted) in {
            "empty": (b"", "well-formed"),
            "zeros": (bytes(100), "well-formed"),
            "JSON": ('{"id":"http://c/1"}', "well-formed"),
            "cut": (structure(unit())[:-3], "well-formed"),
            "mismatched tags": (structure(unit()).replace("</au>", "</block>"), "line 2"),
            "an unknown entity": (structure(unit(url="<url>https://a/&nbsp;</url>")), "well-formed"),
            "another root": (f'<course xmlns="{NAMESPACE}"/>', "the root element is course, not courseStructure"),
            "HTML": ("<html><body/></html>", "the root element is html"),
            "no namespace": (structure(unit()).replace(f' xmlns="{NAMESPACE}"', ""), "''"),
            "another namespace": (structure(unit()).replace(NAMESPACE, namespace), f"'{namespace}', not '{NAMESPACE}'"),
        }.items():
            with self.subTest(name):
                self.assertIn(wanted, self.refused(content))
                self.assertIn(wanted, self.refused(package(content)))

    def test_entities_are_never_read(self):
        secret = os.path.join(self.folder, "secret")
        with open(secret, "w", encoding="ascii") as file:
            file.write("5ecret")
        laughs = '<!ENTITY a "ha">' + "".join(
            f'<!ENTITY {chr(98 + i)} "{10 * f"&{chr(97 + i)};"}">' for i in range(9)
        )
        for name, declared in {
            "a file": f'<!DOCTYPE courseStructure [<!ENTITY j SYSTEM "file://{secret}">]>',
            "a parameter": f'<!DOCTYPE courseStructure [<!ENTITY % p SYSTEM "file://{secret}"> %p;]>',
            "an address": '<!DOCTYPE courseStructure SYSTEM "http://127.0.0.1:9/x.dtd">',
            "many laughs": f"<!DOCTYPE courseStructure [{laughs}]>",
            "none": "<!DOCTYPE courseStructure>",
        }.items():
            with self.subTest(name):
                text = structure(unit(url="<url>https://a/&j;</url>")).replace("?>\n", f"?>\n{declared}")
                told = self.refused(text)
                self.assertIn("<!DOCTYPE courseStructure>", told)
                self.assertNotIn("5ecret", told)


class Words(Case):
    def test_files_that_cannot_be_read(self):
        for path in (self.folder, os.path.join(self.folder, "none"), ""):
            with self.subTest(path):
                status, line, told = self.run_words(path)
                self.assertEqual((status, line), (1, ""))
                self.assertIn("can't be read", told)

    def test_wrong_words(self):
        path = os.path.join(self.folder, "cmi5.xml")
        with open(path, "w", encoding="utf-8") as file:
            file.write(structure(unit()))
        for words in (
            (),
            (path, path),
            (path, "--base"),
            (path, "--bas", BASE),
            (path, "--other"),
            (path, "--base", "content.example/"),
            (path, "--base", "https://content.example/p"),
            (path, "--base", "https://content.example/?x=/"),
            (path, "--base", "https://content.example/#/"),
            (path, "--base", "https://content.example/a b/"),
            (path, "--base", "https://content\n.example/"),
            (path, "--base", "ftp://content.example/"),
            (path, "--base", "https:///"),
            (path, "--base", ""),
        ):
            with self.subTest(words):
                status, line, told = self.run_words(*words)
                self.assertEqual((status, line), (2, ""))
                self.assertIn("usage: cmi5-course", told)

    def test_help(self):
        status, line, told = self.run_words("--help")
        self.assertEqual((status, told), (0, ""))
        self.assertIn("usage: cmi5-course", line)

    def test_an_output_that_fails(self):
        with open("/dev/full", "wb") as full:
            status, _, told = self.run_program(structure(unit()), stdout=full)
        self.assertEqual(status, 1)
        self.assertIn("can't be printed", told)
        status, _, told = self.run_program(structure(unit()), preexec_fn=lambda: os.close(1))
        self.assertEqual(status, 1)
        self.assertIn("can't be printed", told)

    def test_a_structure_from_a_pipe_but_no_package(self):
        text = structure(unit()).encode()
        for content, wanted_status, wanted in ((text, 0, ""), (package(text), 1, "is a pipe")):
            pipe = os.path.join(self.folder, "pipe")
            os.mkfifo(pipe)
            with subprocess.Popen(["tee", pipe], stdin=subprocess.PIPE, stdout=subprocess.DEVNULL) as writer:
                writer.stdin.write(content)
                writer.stdin.close()
                status, _, told = self.run_words(pipe)
            os.remove(pipe)
            self.assertEqual(status, wanted_status, told)
            self.assertIn(wanted, told)


if __name__ == "__main__":
    unittest.main()
