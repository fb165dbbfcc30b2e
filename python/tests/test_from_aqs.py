"""Files and frames become lines. The lines are written by hand, from docs/RULES.md of the repository."""

import datetime
import zipfile
from decimal import Decimal

import numpy
import pandas
import pytest

import airdv
import made
from airdv.aqs import samples
from airdv.errors import NotAqs, RowRefused

LINE = "RD|I|06|037|1103|44201|1|1|007|087|20240701|10:00|0.071"


def lines(*given, **options):
    return list(airdv.from_aqs(*given, **options).samples)


# ---- each format


def test_an_hourly_file_of_airdata(tmp_path):
    path = made.table(tmp_path / "hourly.csv", [made.hourly(), made.hourly(time_local="11:00", qualifier="RT - Wildfire-U. S.", method_code="")])
    assert lines(path) == [LINE, "RD|I|06|037|1103|44201|1|1|007|000|20240701|11:00|0.071||||RT"]


def test_a_file_in_a_zip(tmp_path):
    path = made.table(tmp_path / "hourly.csv", [made.hourly()])
    with zipfile.ZipFile(tmp_path / "hourly.zip", "w", zipfile.ZIP_DEFLATED) as archive:
        archive.write(path, "hourly_44201_2024.csv")
    assert lines(tmp_path / "hourly.zip") == [LINE]


def test_an_answer_of_the_api(tmp_path):
    rows = [made.api(), made.api(time_local="11:00", sample_measurement="", qualifier="AN - Machine Malfunction.")]
    assert lines(made.answer(tmp_path / "answer.json", rows)) == [LINE, "RD|I|06|037|1103|44201|1|1|007|087|20240701|11:00||AN"]


def test_the_same_columns_as_r_writes_them(tmp_path):
    path = tmp_path / "r.csv"
    path.write_text(
        '"","state_code","county_code","site_number","parameter_code","poc","date_local","time_local","sample_measurement",'
        '"units_of_measure_code","sample_duration_code","qualifier","method_code"\n'
        '"1","06","037","1103","44201",1,"2024-07-01","10:00",0.071,"007","1",NA,"087"\n'
        '"2","06","037","1103","44201",1,"2024-07-01","11:00",5e-04,"007","1","V - Validated value.",NA\n'
        '"3","06","037","1103","44201",1,"2024-07-01","12:00",NA,"007","1",NA,"087"\n')
    converted = airdv.from_aqs(path)
    assert converted.samples == [LINE, "RD|I|06|037|1103|44201|1|1|007|000|20240701|11:00|0.0005||||V"]
    assert converted.left_out == {samples.NOTHING: 1}


def test_numbers_without_their_zeros(tmp_path):
    path = made.table(tmp_path / "r.csv", [made.api(state_code="6", county_code="37", site_number="1103", units_of_measure_code="7", method_code="87")])
    assert lines(path) == [LINE]


def test_a_frame(tmp_path):
    frame = pandas.DataFrame([made.api(), made.api(time_local="11:00")])
    frame["poc"] = [1, 1]
    frame["sample_measurement"] = [0.071, 5e-05]
    frame["method_code"] = [87.0, numpy.nan]
    frame["qualifier"] = [None, "V - Validated value."]
    assert lines(frame) == [LINE, "RD|I|06|037|1103|44201|1|1|007|000|20240701|11:00|0.00005||||V"]


def test_a_frame_with_dates_and_decimals():
    frame = pandas.DataFrame([made.api()])
    frame["date_local"] = pandas.to_datetime(frame["date_local"])
    frame["time_local"] = [datetime.time(10, 0)]
    frame["sample_measurement"] = [Decimal("0.0710")]
    assert lines(frame) == [LINE + "0"]


def test_a_frame_that_lost_digits_is_refused():
    frame = pandas.DataFrame([made.api()])
    frame["sample_measurement"] = frame["sample_measurement"].astype("float32")
    with pytest.raises(NotAqs, match="lost digits"):
        lines(frame)


def test_days_of_airdata(tmp_path):
    rows = [
        made.daily(), made.daily(pollutant_standard="PM25 Annual 2012"),  # the same day by another standard
        made.daily(date_local="2024-07-02", event_type="Included", arithmetic_mean="30.0"),
        made.daily(date_local="2024-07-02", event_type="Excluded", arithmetic_mean="12.0"),
        made.daily(date_local="2024-07-03", sample_duration="24-HR BLK AVG"),
        made.daily(date_local="2024-07-03", sample_duration="8-HR RUN AVG BEGIN HOUR"),
    ]
    converted = airdv.from_aqs(made.table(tmp_path / "daily.csv", rows))
    assert converted.samples == [
        "RD|I|06|037|1103|88101|1|7|105|145|20240701|00:00|9.1",
        "RD|I|06|037|1103|88101|1|7|105|145|20240702|00:00|30.0",
    ]
    assert converted.left_out == {samples.EVENT: 1, samples.DURATION: 2}
    assert any(it.startswith("repeated: 1 rows") for it in converted.said)
    assert any(it.startswith("included: 1 days") for it in converted.said)


def test_units_by_their_words(tmp_path):
    rows = [
        made.hourly(), made.hourly(time_local="11:00", units_of_measure="Parts per billion", sample_measurement="71.9"),
        made.hourly(parameter_code="88101", units_of_measure="Micrograms/cubic meter (LC)", sample_measurement="9.1"),
        made.hourly(parameter_code="81102", units_of_measure="Micrograms/cubic meter (25 C)", sample_measurement="20"),
        # (none of these pairs is converted)
        made.hourly(parameter_code="81102", units_of_measure="Micrograms/cubic meter (LC)", sample_measurement="21"),
        made.hourly(parameter_code="88101", units_of_measure="Micrograms/cubic meter (25 C)", sample_measurement="21"),
        made.hourly(units_of_measure="Parts per hundred million"),
    ]
    converted = airdv.from_aqs(made.table(tmp_path / "units.csv", rows))
    assert [it.split("|")[8] + " " + it.split("|")[12] for it in converted.samples] == ["007 0.071", "008 71.9", "105 9.1", "001 20"]
    assert converted.left_out == {samples.UNIT: 3}


# ---- what is left out


def test_each_cause_is_counted(tmp_path):
    rows = [
        made.hourly(),
        made.hourly(parameter_code="42602"), made.hourly(parameter_code="42101"),
        made.hourly(state_code="CC"),
        made.hourly(date_local="1989-12-31"), made.hourly(date_local="2060-01-01"),
        made.hourly(time_local="10:30"),
        made.hourly(time_local="12:00", sample_measurement=""),
        made.hourly(time_local="13:00", sample_measurement="", qualifier="V"),
        made.hourly(parameter_code="81102", units_of_measure="Micrograms/cubic meter (25 C)", sample_measurement="10000"),
        made.hourly(time_local="14:00", sample_measurement="-1"),
    ]
    converted = airdv.from_aqs(made.table(tmp_path / "causes.csv", rows))
    assert converted.samples == [LINE]
    assert converted.left_out == {
        samples.PARAMETER: 2, samples.COUNTRY: 1, samples.DATE: 2, samples.MINUTES: 1, samples.NOTHING: 2, samples.BEYOND: 2,
    }


def test_a_choice(tmp_path):
    rows = [made.hourly(), made.hourly(state_code="04"), made.hourly(county_code="071"), made.hourly(site_num="1104"), made.hourly(date_local="2023-07-01")]
    path = made.table(tmp_path / "choice.csv", rows)
    assert len(lines(path)) == 5
    assert len(lines(path, choice=airdv.Choice.of(states=["06"]))) == 4
    assert len(lines(path, choice=airdv.Choice.of(counties=["06-037"]))) == 3
    assert lines(path, choice=airdv.Choice.of(sites=["06-037-1103"], years=[2024])) == [LINE]
    assert len(lines(path, choice=airdv.Choice.of(states=["04"], counties=["06-071"]))) == 2
    for wrong in ({"states": ["6"]}, {"counties": ["06037"]}, {"sites": ["06-037"]}):
        with pytest.raises(ValueError):
            airdv.Choice.of(**wrong)


# ---- what stands twice


def test_the_same_sample_twice_is_one(tmp_path):
    path = made.table(tmp_path / "twice.csv", [made.hourly(), made.hourly(sample_measurement="0.0710")])
    converted = airdv.from_aqs(path, made.answer(tmp_path / "answer.json", [made.api()]))
    assert converted.samples == [LINE]
    assert any(it.startswith("repeated: 2 rows") for it in converted.said)


@pytest.mark.parametrize("cells", [
    {"sample_measurement": "0.072"}, {"method_code": "047"}, {"qualifier": "V"}, {"sample_measurement": "", "qualifier": "AN"},
    {"units_of_measure": "Parts per billion", "sample_measurement": "71"},
])
def test_a_sample_with_two_contents_is_refused_with_both_rows(tmp_path, cells):
    path = made.table(tmp_path / "twice.csv", [made.hourly(), made.hourly(time_local="11:00"), made.hourly(**cells)])
    with pytest.raises(RowRefused, match="twice.csv, line 2 with .* and .*twice.csv, line 4 with "):
        lines(path)


def test_rows_of_two_files_that_contradict_are_both_named(tmp_path):
    one, other = made.table(tmp_path / "one.csv", [made.hourly()]), made.table(tmp_path / "other.csv", [made.hourly(sample_measurement="0.072")])
    with pytest.raises(RowRefused, match="one.csv, line 2 .*other.csv, line 2 "):
        lines(one, other)


def both_durations(tmp_path):
    words = {"parameter_code": "88101", "units_of_measure": "Micrograms/cubic meter (LC)", "sample_measurement": "9.1"}
    hours = made.table(tmp_path / "hours.csv", [made.hourly(**words), made.hourly(**words, site_num="1104"), made.hourly()])
    return hours, made.table(tmp_path / "days.csv", [made.daily(), made.daily(site_num="1105")])


def test_a_monitor_with_both_durations_is_refused_with_both_rows(tmp_path):
    with pytest.raises(RowRefused, match="hours.csv, line 2 .*days.csv, line 2 "):
        lines(*both_durations(tmp_path))


@pytest.mark.parametrize("duration, of_both", [("1", "1"), ("7", "7")])
def test_a_duration_is_meant_of_such_a_monitor_alone(tmp_path, duration, of_both):
    found = [it.split("|") for it in lines(*both_durations(tmp_path), duration=duration)]
    assert sorted((it[4], it[5], it[7]) for it in found) == [
        ("1103", "44201", "1"), ("1103", "88101", of_both), ("1104", "88101", "1"), ("1105", "88101", "7"),
    ]


# ---- what is refused


@pytest.mark.parametrize("cells, said", [
    ({"sample_measurement": "NaN"}, "no number"), ({"sample_measurement": "1,5"}, "no number"), ({"date_local": "2023-02-29"}, "no day"),
    ({"time_local": "24:00"}, "the time"), ({"qualifier": "Wildfire"}, "the qualifier"), ({"state_code": "TT"}, "the state"),
    ({"site_num": "11033"}, "the site number"), ({"poc": "0"}, "the POC"), ({"method_code": "0870"}, "the method"),
    ({"qualifier": "V,RT", "sample_measurement": ""}, "null code"),
])
def test_a_row_that_is_spelled_otherwise_is_refused_by_its_line(tmp_path, cells, said):
    path = made.table(tmp_path / "bad.csv", [made.hourly(time_local="09:00"), made.hourly(**cells)])
    with pytest.raises(RowRefused, match=f"bad.csv, line 3: .*{said}"):
        lines(path)


def test_hostile_tables(tmp_path):
    good = made.table(tmp_path / "good.csv", [made.hourly(), made.hourly(time_local="11:00")])
    text = good.read_text()
    path = tmp_path / "hostile.csv"

    def of(changed):
        path.write_bytes(changed if isinstance(changed, bytes) else changed.encode())
        return lines(path)

    wanted = lines(good)
    assert len(wanted) == 2
    assert of("\ufeff" + text) == wanted
    assert of(text.replace("\n", "\r\n")) == wanted
    assert of(text.replace('"', "")) == wanted
    assert of(text + "\n\n") == wanted
    assert of(text.encode().replace(b"California", b"Do\xf1a")) == wanted
    assert of(text.replace('"California"', '"Cali""fornia,\n, the state"')) == wanted
    for broken in (text[:-30], text.replace('"0.071"', '"0.071', 1), text + '"06","037"\n', text.replace("Sample Measurement", "Sample Value"),
                   text.replace('"MDL"', '"Date Local"'), "", "\n", '{"a": 1', text.encode("utf-16")):
        with pytest.raises((NotAqs, RowRefused)):
            of(broken)


@pytest.mark.parametrize("order", [1, -1])
def test_no_cut_of_a_file_gives_another_number(tmp_path, order):
    rows = [made.hourly(), made.hourly(time_local="11:00", sample_measurement="0.0729")]
    if order < 0:
        # (a value is the last cell of its row, without quotes around it)
        rows = [{**{it: text for it, text in row.items() if it != "Sample Measurement"}, "Sample Measurement": row["Sample Measurement"]} for row in rows]
    good = made.table(tmp_path / "good.csv", rows)
    good.write_text(good.read_text().replace('"', ""))
    whole, wanted, path = good.read_bytes(), lines(good), tmp_path / "cut.csv"
    assert len(wanted) == 2
    for length in range(len(whole)):
        path.write_bytes(whole[:length])
        try:
            found = lines(path)
        except (NotAqs, RowRefused):
            continue
        assert found == wanted[:len(found)]


def test_no_cut_of_an_answer_is_read(tmp_path):
    good = made.answer(tmp_path / "good.json", [made.api(), made.api(time_local="11:00")])
    whole, path = good.read_bytes(), tmp_path / "cut.json"
    for length in range(len(whole)):
        path.write_bytes(whole[:length])
        with pytest.raises((NotAqs, RowRefused)):
            lines(path)


def test_an_answer_whose_header_has_another_number_of_rows_is_refused(tmp_path):
    with pytest.raises(NotAqs, match="has 1 rows"):
        lines(made.answer(tmp_path / "answer.json", [made.api()], rows=2))


def test_hostile_answers(tmp_path):
    path = made.answer(tmp_path / "answer.json", [made.api()])
    text = path.read_text()
    for changed in (text.replace("0.071", "NaN"), text.replace("0.071", "true"), text.replace("0.071", "[0.071]"),
                    text.replace('"poc": 1', '"poc": 1, "poc": 2'), text.replace('"qualifier"', '"qualifiers"'), "[]"):
        path.write_text(changed)
        with pytest.raises((NotAqs, RowRefused)):
            lines(path)
    path.write_text(text.replace("0.071", "7.1E-2"))
    assert lines(path) == [LINE]
