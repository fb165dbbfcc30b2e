"""The command `airdv-from-aqs`: its words, its statuses, and that nothing is written behind a refusal."""

import os

import pytest

import made
from airdv.aqs import loads
from airdv.aqs.command import main

LINE = "RD|I|06|037|1103|44201|1|1|007|087|20240701|10:00|0.071\n"


@pytest.fixture(autouse=True)
def in_a_folder(tmp_path, monkeypatch):
    monkeypatch.chdir(tmp_path)
    made.table(tmp_path / "hours.csv", [made.hourly()])


def test_to_the_output(capsys):
    assert main(["hours.csv"]) == 0
    output, errors = capsys.readouterr()
    assert output == LINE and "1 samples of 1 monitors" in errors


def test_to_a_folder_records_come_first(tmp_path):
    assert main(["hours.csv", "--monitors", "--out", "loads", "--number", "17"]) == 0
    assert sorted(os.listdir("loads")) == ["0000000017-records.txt", "0000000018-samples.txt"]
    assert (tmp_path / "loads" / "0000000018-samples.txt").read_text() == LINE
    assert sorted(os.listdir()) == ["hours.csv", "loads"]


def test_a_folder_that_is_there_is_left_alone(tmp_path, capsys):
    os.mkdir("loads")
    assert main(["hours.csv", "--out", "loads"]) == 4
    assert os.listdir("loads") == [] and sorted(os.listdir()) == ["hours.csv", "loads"]


def test_behind_a_refusal_nothing_is_written(tmp_path, capsys):
    made.table(tmp_path / "bad.csv", [made.hourly(), made.hourly(sample_measurement="0.072")])
    assert main(["bad.csv"]) == 17
    assert main(["bad.csv", "--out", "loads"]) == 17
    assert main(["none.csv"]) == 3
    assert capsys.readouterr().out == "" and sorted(os.listdir()) == ["bad.csv", "hours.csv"]


def test_more_than_one_load_may_have_goes_into_a_folder_alone(tmp_path, capsys, monkeypatch):
    made.table(tmp_path / "long.csv", [made.hourly(time_local=f"{hour:02}:00") for hour in range(24)])
    for most_lines, most_bytes in (23, loads.MOST_BYTES), (loads.MOST_LINES, 24 * len(LINE) - 1):
        monkeypatch.setattr(loads, "MOST_LINES", most_lines)
        monkeypatch.setattr(loads, "MOST_BYTES", most_bytes)
        assert main(["long.csv"]) == 10
        assert capsys.readouterr().out == ""
        assert main(["long.csv", "--out", f"loads-{most_lines}"]) == 0
        texts = [(tmp_path / f"loads-{most_lines}" / it).read_text() for it in sorted(os.listdir(f"loads-{most_lines}"))]
        assert [it.count("\n") for it in texts] == [23, 1]
        assert "".join(texts) == "".join(LINE.replace("10:00", f"{hour:02}:00") for hour in range(24))


@pytest.mark.parametrize("words", [
    [], ["hours.csv", "--year", "1989"], ["hours.csv", "--state", "6"], ["hours.csv", "--duration", "2"], ["hours.csv", "--out", "f", "--number", "0"],
    ["hours.csv", "--extract", "2024-01-01", "2023-12-31"], ["hours.csv", "--extract", "2024-01-01", "20241231"],
    ["hours.csv", "--extract", "2024-01-01", "2024-12-31", "--out", "loads"], ["hours.csv", "--extract", "2024-01-01", "2024-12-31", "--year", "2024"],
])
def test_words_that_are_none(words, capsys):
    with pytest.raises(SystemExit) as ended:
        main(words)
    assert ended.value.code == 2 and capsys.readouterr().out == ""


# ---- extracts

EXTRACT = ["--extract", "2024-01-01", "2024-12-31"]


def test_an_extract_has_the_days_of_its_span_alone(tmp_path, capsys):
    rows = [made.api(), made.api(date_local="2023-12-31"), made.api(date_local="2025-01-01", time_local="10:30")]
    made.answer(tmp_path / "answer.json", rows, first="20231231", last="20250101")
    assert main(["answer.json", *EXTRACT]) == 0
    assert capsys.readouterr().out == LINE


@pytest.mark.parametrize("cells", [
    {"time_local": "11:30"}, {"sample_measurement": "10"}, {"sample_measurement": ""}, {"units_of_measure_code": "105"}, {"sample_duration_code": "W"},
    {"date_local": "2024-12-31", "time_local": "11:30"},
])
def test_an_extract_without_a_row_of_its_monitors_is_refused(tmp_path, capsys, cells):
    made.answer(tmp_path / "answer.json", [made.api(), made.api(**{"time_local": "11:00", **cells})])
    assert main(["answer.json", *EXTRACT]) == 18
    assert capsys.readouterr().out == ""


def test_a_row_of_another_monitor_may_be_left_out(tmp_path, capsys):
    made.answer(tmp_path / "answer.json", [made.api(), made.api(parameter_code="42602"), made.api(poc="2", time_local="11:30")])
    assert main(["answer.json", *EXTRACT]) == 0
    assert capsys.readouterr().out == LINE


@pytest.mark.parametrize("header", [
    {"status": "Failed"}, {"status": "No data matched your selection"}, {"url": ""}, {"url": made.ADDRESS.format("20240101", "20240630")},
    {"url": made.ADDRESS.format("20240102", "20241231")}, {"url": made.ADDRESS.format("20240101", "20241231") + "&cbdate=20240701"},
    {"url": made.ADDRESS.format("20240101", "20241231").replace("sampleData", "dailyData")}, {"url": made.ADDRESS.format("20240101", "20241231") + "&" + made.KEY},
    {"url": made.ADDRESS.format("20240101", "20241231") + "&bdate=20240101"},
])
def test_an_answer_that_may_lack_samples_is_no_extract_and_the_key_is_never_shown(tmp_path, capsys, header):
    made.answer(tmp_path / "answer.json", [made.api()], **header)
    assert main(["answer.json", *EXTRACT]) == 18
    output, errors = capsys.readouterr()
    assert output == "" and made.KEY not in errors and "a.b@c.gov" not in errors


def test_a_table_is_no_extract(capsys):
    assert main(["hours.csv", *EXTRACT]) == 18
    assert capsys.readouterr().out == ""


def test_the_key_is_in_no_output(tmp_path, capsys):
    good = made.answer(tmp_path / "answer.json", [made.api()])
    whole = good.read_text()
    for text in (whole, whole[:-20], whole[:200], whole.replace("0.071", "true"), whole.replace('"rows": 1', '"rows": 2')):
        good.write_text(text)
        main(["answer.json"])
        main(["answer.json", *EXTRACT])
        output, errors = capsys.readouterr()
        assert made.KEY not in output + errors
