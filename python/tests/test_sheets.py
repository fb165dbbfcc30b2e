"""Sheets as text and as JSON become one frame. The sheets are those of docs/COMMANDS.md and docs/USING.md of the repository."""

import json
import os
import subprocess
from decimal import Decimal

import pandas
import pytest

from airdv import questions, sheets
from airdv.errors import NoCommand, UnexpectedReply
from airdv.program import found_program

SHOW = """standard PM10-24H-1987
site 06-071-0306
year 2024
value -
test -
verdict NoValue
year estimate lower exceedances complete
2022 0.0 0.0 0 Y
2023 - 0.0 0 N
2024 1.1 0.0 1 Y
"""
SHOWN = {
    "columns": ["year", "estimate", "lower", "exceedances", "complete"],
    "rows": [[2022, "0.0", "0.0", 0, "Y"], [2023, None, "0.0", 0, "N"], [2024, "1.1", "0.0", 1, "Y"]],
    "site": "06-071-0306", "standard": "PM10-24H-1987", "test": None, "value": None, "verdict": "NoValue", "year": 2024,
}
FORMS = questions.question("show").forms(["PM10-24H-1987", "06-071-0306", "2024"])


@pytest.mark.parametrize("read", [lambda: sheets.of_text(SHOW, FORMS), lambda: sheets.of_json(json.dumps(SHOWN), FORMS)])
def test_a_sheet_is_a_frame(read):
    (sheet,) = read()
    frame = sheets.frame(sheet, FORMS[0], "decimal")
    assert frame.attrs == {"standard": "PM10-24H-1987", "site": "06-071-0306", "year": 2024, "value": pandas.NA, "test": pandas.NA, "verdict": "NoValue"}
    assert frame["year"].dtype == "Int64" and frame["year"].tolist() == [2022, 2023, 2024]
    assert frame["estimate"].tolist() == [Decimal("0.0"), pandas.NA, Decimal("1.1")]
    assert frame["complete"].dtype == "string" and frame["complete"].tolist() == ["Y", "N", "Y"]
    floats = sheets.frame(sheet, FORMS[0], "float")
    assert floats["estimate"].dtype == "Float64" and floats["estimate"].isna().tolist() == [False, True, False]


def test_days_and_hours_are_times():
    (form,) = questions.question("events").forms(["06-037-1103"])
    text = "site 06-037-1103\nevent parameter first last code agreed flagged\n101 44201 2024-07-04T12:00 2024-07-05T17:00 RT - 12\n"
    frame = sheets.frame(sheets.of_text(text, [form])[0], form, "decimal")
    assert frame["first"].tolist() == [pandas.Timestamp(2024, 7, 4, 12)]
    assert frame["agreed"].isna().tolist() == [True]


def test_a_sheet_without_rows_has_its_columns():
    (form,) = questions.question("sites").forms([])
    frame = sheets.frame(sheets.of_text("sites 0\nsite ozone pm25 pm10\n", [form])[0], form, "decimal")
    assert frame.shape == (0, 4) and frame["ozone"].dtype == "Int64" and frame.attrs == {"sites": 0}


def test_two_sheets_of_an_area():
    text = ("standard O3-2015\nyear 2024\nverdict Met\ngoverning 06-037-4004\nvalue 0.070\nmet 2\nyear verdict value\n2022 NotMet 0.071\n"
            "standard O3-2015\nyear 2024\nsite value verdict critical\n06-037-1103 0.069 Met 0.072\n06-037-4004 0.070 Met 0.072\n")
    forms = questions.question("area").forms(["O3-2015", "06-037", "2024"])
    one, other = (sheets.frame(it, form, "decimal") for it, form in zip(sheets.of_text(text, forms), forms))
    assert one.attrs["met"] == 2 and one["value"].tolist() == [Decimal("0.071")]
    assert other["site"].tolist() == ["06-037-1103", "06-037-4004"] and other["critical"].tolist() == [Decimal("0.072")] * 2


def test_the_null_code_na_is_no_missing_value():
    text = ",".join(questions.EXPORT) + "\n06-071-0306,81102,1,2023-01-04,00,75.3,,V RJ,N\n06-071-0306,81102,1,2023-01-10,23,,NA,,N\n"
    frame = sheets.export_frame(text, "decimal")
    assert frame["null"].isna().tolist() == [True, False] and frame["null"][1] == "NA"
    assert frame["value"][0] == Decimal("75.3") and frame["value"][1] is pandas.NA
    assert frame["hour"].tolist() == [0, 23] and frame["qualifiers"][0] == "V RJ" and frame["date"][0] == pandas.Timestamp(2023, 1, 4)
    assert sheets.export_frame(",".join(questions.EXPORT) + "\n", "decimal").shape == (0, 9)


@pytest.mark.parametrize("text", ["", SHOW[:40], SHOW.replace("verdict", "word"), SHOW.replace("2022 0.0", "2022"), SHOW.replace("estimate", "guess")])
def test_another_text_is_an_unexpected_reply(text):
    with pytest.raises(UnexpectedReply):
        sheets.of_text(text, FORMS)


@pytest.mark.parametrize("given", ["", "{}", "[]", json.dumps([SHOWN, SHOWN]), json.dumps({**SHOWN, "rows": [[1]]}), json.dumps({**SHOWN, "more": 1}),
                                   json.dumps({**SHOWN, "rows": [[2022, True, "0.0", 0, "Y"]]})])
def test_another_json_is_an_unexpected_reply(given):
    with pytest.raises(UnexpectedReply):
        sheets.of_json(given, FORMS)


def test_a_cell_of_another_kind_is_an_unexpected_reply():
    with pytest.raises(UnexpectedReply):
        sheets.frame(sheets.of_text(SHOW.replace("2022 0.0", "2022 x"), FORMS)[0], FORMS[0], "decimal")


def test_words_that_are_no_question():
    for name, words in ("shows", []), ("sites", ["06-037-1103"]), ("show", ["O3-2015"]), ("show", ["O3-2014", "06-037-1103", 2024]):
        with pytest.raises(NoCommand):
            asked = questions.question(name)
            asked.forms(asked.words(words))
    assert questions.question("area").words(["O3-2015", ["06-037-1103", "06-037-1104"], 2024]) == ["O3-2015", "06-037-1103,06-037-1104", "2024"]


def test_each_path_has_the_words_of_its_usage():
    for it in questions.TABLE:
        assert all(it.path.count(f"{{{place}}}") == 1 for place in it.places) and it.path.count("{") == len(it.places)


def test_the_table_has_the_questions_of_the_usage_text(tmp_path):
    try:
        program = found_program()
    except FileNotFoundError:
        pytest.skip("AIRDV names no program")
    ended = subprocess.run([program], cwd=tmp_path, capture_output=True, text=True, check=False)
    usage = [it.removeprefix("usage: airdv ") for it in ended.stderr.splitlines() if it.startswith("usage: airdv ")]
    others = ("scan", "load", "try", "changes", "serve", "simulate")
    assert ended.returncode == 2 and [it for it in usage if it.split()[0] not in others] == [it.usage for it in questions.TABLE]
    assert not os.listdir(tmp_path)
