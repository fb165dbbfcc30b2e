"""One office's part in a region, and how a region is cut into offices. bin/tries-python tries regions on Dask."""

import os
from decimal import Decimal

import pandas
import pytest

import airdv
import made
from airdv import regions
from airdv.division import planned
from airdv.errors import DoesNotFit
from airdv.office import joined
from test_office import program

REPORT = 'printf "standard O3-2015\\nyear 2024\\nsite value verdict\\n06-037-1103 0.070 Met\\n"'


def task(folder, text, again=2):
    return regions._Task(folder, "report", ("O3-2015", "2024"), "decimal", again, {"program": program(folder, text)})


def test_heads_are_columns(tmp_path):
    frame = regions._ask(task(tmp_path, REPORT))
    assert list(frame.columns) == ["standard", "year", "site", "value", "verdict"]
    assert [str(it) for it in frame.iloc[0]] == ["O3-2015", "2024", "06-037-1103", "0.070", "Met"]


def test_a_file_that_is_taken_is_asked_for_again_so_often(tmp_path, monkeypatch):
    monkeypatch.setattr(regions, "FIRST_PAUSE", 0.001)
    counted = "echo x >> asked; [ $(wc -l < asked) = 3 ] || { echo 'airdv: 5 keeper failed' >&2; exit 5; }; "
    assert len(regions._ask(task(tmp_path, counted + REPORT, again=2))) == 1
    (tmp_path / "asked").unlink()
    assert regions._ask(task(tmp_path, counted + REPORT, again=1)) == regions._Failure("KeeperFailed", "airdv: 5 keeper failed")


def test_what_is_no_answer_is_said(tmp_path):
    assert regions._ask(task(tmp_path, "echo 'airdv: 6 damaged records 0' >&2; exit 6")) == regions._Failure("Damaged", "airdv: 6 damaged records 0")
    gone = regions._Task(tmp_path / "none", "sites", (), "decimal", 0, {})
    assert regions._ask(gone).error == "FileNotFoundError"


# ---- cut into offices


def test_a_state_that_fits_is_one_office():
    assert [(it.name, it.sites, it.samples) for it in planned({"06-037-1103": 3, "04-013-0019": 2, "06-071-0306": 4}, 2, 7)] == [
        ("04", ["04-013-0019"], 2), ("06", ["06-037-1103", "06-071-0306"], 7),
    ]


def test_a_state_is_cut_between_counties_where_it_must():
    samples = {"06-001-0001": 1, "06-003-0001": 1, "06-003-0002": 1, "06-005-0001": 1}
    assert [(it.name, it.sites) for it in planned(samples, 2, 100)] == [
        ("06-1", ["06-001-0001"]), ("06-2", ["06-003-0001", "06-003-0002"]), ("06-3", ["06-005-0001"]),
    ]
    assert [it.sites for it in planned(samples, 100, 3)] == [["06-001-0001", "06-003-0001", "06-003-0002"], ["06-005-0001"]]


def test_a_county_that_fits_into_no_office_is_cut():
    samples = {f"06-037-{site:04}": 1 for site in range(5)}
    assert [len(it.sites) for it in planned(samples, 2, 100)] == [2, 2, 1]


def test_a_site_that_fits_into_no_office_is_refused():
    with pytest.raises(DoesNotFit, match="06-037-1103"):
        planned({"06-037-1103": 8}, 2, 7)


def test_files_are_divided(tmp_path):
    rows = [made.hourly(state_code=state, county_code=county, date_local=f"{year}-07-01")
            for year in (2023, 2024) for state, county in (("06", "037"), ("06", "071"), ("04", "013"))]
    path = made.table(tmp_path / "hours.csv", rows)
    frame = airdv.divide([path], tmp_path / "offices", most_samples=3, monitors=True)
    assert frame["office"].tolist() == ["04", "06-1", "06-2"] and frame["samples"].tolist() == [2, 2, 2] and frame.attrs["cut"] == []
    assert sorted(os.listdir(tmp_path / "offices")) == ["04", "06-1", "06-2"]
    assert (tmp_path / "offices" / "06-2" / "0000000001-records.txt").read_text() == "XM|I|06|071|1103|44201|1|1|Y\nXP|I|06|071|1103|44201|20230101|1\n"
    assert (tmp_path / "offices" / "06-2" / "0000000002-samples.txt").read_text() == "".join(
        f"RD|I|06|071|1103|44201|1|1|007|087|{year}0701|10:00|0.071\n" for year in (2023, 2024))


def test_nine_monitors_of_a_site_are_refused_and_nothing_is_left(tmp_path):
    path = made.table(tmp_path / "hours.csv", [made.hourly(poc=str(poc)) for poc in range(1, 10)])
    with pytest.raises(DoesNotFit, match="9 monitors"):
        airdv.divide([path], tmp_path / "offices")
    assert os.listdir(tmp_path) == ["hours.csv"]


def test_what_is_missing_in_one_office_is_na_beside_another(tmp_path):
    for name, cell in ("one", "-"), ("other", "0.070"):
        (tmp_path / name).mkdir()
        program(tmp_path / name, REPORT.replace("0.070", cell))
    frames = [regions._ask(regions._Task(tmp_path / it, "report", ("O3-2015", "2024"), "decimal", 0, {"program": tmp_path / it / "program"})) for it in ("one", "other")]
    made_one = joined(frames)
    assert made_one["value"][0] is pandas.NA and made_one["value"][1] == Decimal("0.070")
    assert str(made_one["year"].dtype) == "Int64" and str(made_one["standard"].dtype) == "string"


def test_a_head_and_a_column_of_one_name_are_both_kept(tmp_path):
    text = ('printf "standard O3-2015\\nyear 2024\\nverdict Met\\ngoverning 06-037-4004\\nvalue 0.070\\nmet 2\\nyear verdict value\\n2022 NotMet 0.071\\n'
            'standard O3-2015\\nyear 2024\\nsite value verdict critical\\n06-037-4004 0.070 Met 0.072\\n"')
    frame = regions._ask(regions._Task(tmp_path, "area", ("O3-2015", "06-037", "2024"), "decimal", 0, {"program": program(tmp_path, text)}))
    assert frame["sheet"].tolist() == [1, 2] and frame["verdict"].tolist() == ["NotMet", "Met"] and frame["sheet_verdict"][0] == "Met"
