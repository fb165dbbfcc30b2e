"""What goes before samples. The lines are written by hand, from docs/RULES.md of the repository."""

import pytest

import airdv
import made
from airdv.errors import NotAqs

PM25 = {"parameter_code": "88101", "units_of_measure": "Micrograms/cubic meter (LC)", "sample_measurement": "9.1"}


def records(tmp_path, rows, **options):
    converted = airdv.from_aqs(made.table(tmp_path / "rows.csv", rows), **options)
    return list(converted.records), list(converted.said)


def test_nothing_is_written_that_is_not_asked_for(tmp_path):
    lines, said = records(tmp_path, [made.hourly(), made.hourly(**PM25)])
    assert lines == []
    assert sum("has no ozone season in 2024" in it for it in said) == 1
    assert sum("88101 has no schedule" in it for it in said) == 1


def test_monitors_and_primary_ones_are_guessed_and_said(tmp_path):
    rows = [made.hourly(poc="2"), made.hourly(**PM25), made.hourly(**PM25, poc="3"), made.hourly(date_local="2022-12-31", poc="2")]
    lines, said = records(tmp_path, rows, monitors=True)
    assert lines == [
        "XM|I|06|037|1103|44201|2|1|Y", "XM|I|06|037|1103|88101|1|1|Y", "XM|I|06|037|1103|88101|3|1|Y",
        "XP|I|06|037|1103|44201|20220101|2",
    ]
    assert sum(it.startswith("guessed: ") for it in said) == 4
    assert any(it.startswith("not written: 06-037-1103 88101 has 2 monitors") for it in said)


LIST = ("State Code,County Code,Site Number,Parameter Code,POC,Monitor Type,NAAQS Primary Monitor\n"
        "06,037,1103,44201,1,SLAMS,Y\n06,037,1103,88101,1,SPM - NON-REGULATORY,\n06,037,1103,88101,3,SLAMS,Y\nCC,037,1103,88101,3,SLAMS,Y\n"
        "06,037,1103,42101,1,SLAMS,Y\n")


def test_a_list_of_monitors_says_better(tmp_path):
    (tmp_path / "aqs_monitors.csv").write_text(LIST)
    rows = [made.hourly(), made.hourly(**PM25), made.hourly(**PM25, poc="3")]
    lines, said = records(tmp_path, rows, monitor_list=tmp_path / "aqs_monitors.csv")
    assert lines == [
        "XM|I|06|037|1103|44201|1|1|Y", "XM|I|06|037|1103|88101|1|1|N", "XM|I|06|037|1103|88101|3|1|Y",
        "XP|I|06|037|1103|44201|20240101|1", "XP|I|06|037|1103|88101|20240101|3",
    ]
    assert not any(it.startswith("guessed") for it in said)


@pytest.mark.parametrize("text, said", [
    ("06,037,1103,88101,2,SLAMS,Y\n", "POC 2, of which nothing was read"),
    ("06,037,1103,88101,1,SLAMS,Y\n06,037,1103,88101,2,SLAMS,Y\n", "several primary monitors"),
])
def test_a_primary_monitor_that_is_not_clear_is_not_written(tmp_path, text, said):
    (tmp_path / "list.csv").write_text(LIST.splitlines(keepends=True)[0] + text)
    lines, found = records(tmp_path, [made.hourly(**PM25)], monitor_list=tmp_path / "list.csv")
    assert lines == ["XM|I|06|037|1103|88101|1|1|Y"] and any(said in it for it in found)


@pytest.mark.parametrize("text", ["06,037,1103,88101,1,SLAMS,maybe\n", "06,037,11033,88101,1,SLAMS,Y\n", "06,037\n",
                                  "06,037,1103,88101,1,SLAMS,Y\n06,037,1103,88101,1,SLAMS,N\n"])
def test_a_list_that_is_not_clear_is_refused(tmp_path, text):
    (tmp_path / "list.csv").write_text(LIST.splitlines(keepends=True)[0] + text)
    with pytest.raises(NotAqs):
        records(tmp_path, [made.hourly()], monitor_list=tmp_path / "list.csv")


def test_seasons_of_states_counties_sites_and_years(tmp_path):
    (tmp_path / "seasons.csv").write_text("area,year,first,last\n06,,03-01,10-31\n06-037,2023,04-01,09-30\n06-037-1103,2022,01-01,12-31\n")
    rows = [made.hourly(date_local=f"{year}-07-01") for year in (2022, 2023, 2024)] + [made.hourly(state_code="04")]
    lines, said = records(tmp_path, rows, seasons=tmp_path / "seasons.csv")
    assert lines == [
        "XO|I|06|037|1103|2022|20220101|20221231", "XO|I|06|037|1103|2023|20230401|20230930", "XO|I|06|037|1103|2024|20240301|20241031",
    ]
    assert [it for it in said if "season" in it] == ["warning: 04-037-1103 has no ozone season in 2024, so the whole year is; a shorter one is then Incomplete"]


@pytest.mark.parametrize("text", ["6,,03-01,10-31\n", "06,24,03-01,10-31\n", "06,,02-29,10-31\n", "06,,10-31,03-01\n", "06,,3-1,10-31\n", "06,,03-01\n",
                                  "06,,03-01,10-31\n06,,03-01,11-30\n"])
def test_a_list_of_seasons_that_is_not_clear_is_refused(tmp_path, text):
    (tmp_path / "seasons.csv").write_text("area,year,first,last\n" + text)
    with pytest.raises(NotAqs):
        records(tmp_path, [made.hourly()], seasons=tmp_path / "seasons.csv")


def test_schedules_of_hourly_monitors_alone(tmp_path):
    path = made.table(tmp_path / "days.csv", [made.daily(site_num="1104")])
    hours = made.table(tmp_path / "hours.csv", [made.hourly(**PM25)])
    converted = airdv.from_aqs(hours, path, schedules=True)
    assert converted.records == ["XS|I|06|037|1103|88101|20240101|1|20240101"]
    assert any("06-037-1104 88101 has no schedule" in it for it in converted.said)
