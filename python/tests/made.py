"""Rows of the formats of AQS, made up for tests."""

import json

API_COLUMNS = (
    "state_code", "county_code", "site_number", "parameter_code", "poc", "latitude", "longitude", "date_local", "time_local",
    "date_gmt", "time_gmt", "sample_measurement", "units_of_measure", "units_of_measure_code", "sample_duration",
    "sample_duration_code", "qualifier", "method_code", "state",
)
HOURLY_COLUMNS = (
    "State Code", "County Code", "Site Num", "Parameter Code", "POC", "Latitude", "Longitude", "Date Local", "Time Local",
    "Date GMT", "Time GMT", "Sample Measurement", "Units of Measure", "MDL", "Uncertainty", "Qualifier", "Method Code", "State Name",
)
DAILY_COLUMNS = (
    "State Code", "County Code", "Site Num", "Parameter Code", "POC", "Latitude", "Longitude", "Sample Duration",
    "Pollutant Standard", "Date Local", "Units of Measure", "Event Type", "Observation Count", "Arithmetic Mean", "AQI",
    "Method Code", "State Name",
)
# An address as that of an answer of the API. The key is one that no output may have.
KEY = "secretkey17"
ADDRESS = "https://aqs.epa.gov/data/api/sampleData/byState?email=a.b@c.gov&key=" + KEY + "&param=44201&bdate={}&edate={}&state=06"


def hourly(**cells):
    """A row of an hourly file of AirData, of ozone at 06-037-1103, with other cells where they are named."""
    row = {
        "State Code": "06", "County Code": "037", "Site Num": "1103", "Parameter Code": "44201", "POC": "1", "Date Local": "2024-07-01",
        "Time Local": "10:00", "Date GMT": "2024-07-01", "Time GMT": "18:00", "Sample Measurement": "0.071",
        "Units of Measure": "Parts per million", "Method Code": "087", "State Name": "California",
    }
    return _filled(HOURLY_COLUMNS, row, cells)


def daily(**cells):
    """A row of a daily file of AirData, of a PM2.5 sample of 24 hours at 06-037-1103."""
    row = {
        "State Code": "06", "County Code": "037", "Site Num": "1103", "Parameter Code": "88101", "POC": "1", "Sample Duration": "24 HOUR",
        "Pollutant Standard": "PM25 24-hour 2012", "Date Local": "2024-07-01", "Units of Measure": "Micrograms/cubic meter (LC)",
        "Event Type": "None", "Observation Count": "1", "Arithmetic Mean": "9.1", "AQI": "38", "Method Code": "145",
        "State Name": "California",
    }
    return _filled(DAILY_COLUMNS, row, cells)


def api(**cells):
    """A row of the API's sample data, of ozone at 06-037-1103."""
    row = {
        "state_code": "06", "county_code": "037", "site_number": "1103", "parameter_code": "44201", "poc": "1",
        "date_local": "2024-07-01", "time_local": "10:00", "date_gmt": "2024-07-01", "time_gmt": "18:00", "sample_measurement": "0.071",
        "units_of_measure": "Parts per million", "units_of_measure_code": "007", "sample_duration": "1 HOUR",
        "sample_duration_code": "1", "qualifier": "", "method_code": "087", "state": "California",
    }
    return _filled(API_COLUMNS, row, cells)


def _filled(columns, row, cells):
    """The cells by their columns; a name in small letters with underlines stands for a column with blanks."""
    named = {it.replace(" ", "_").lower(): it for it in columns}
    row = {**dict.fromkeys(columns, ""), **row, **{named[name.lower()]: text for name, text in cells.items()}}
    return row


def table(path, rows):
    """A CSV as AirData writes it, with quotes around texts."""
    lines = [",".join(f'"{it}"' for it in rows[0])]
    lines += [",".join(f'"{it}"' for it in row.values()) for row in rows]
    path.write_text("".join(f"{it}\n" for it in lines))
    return path


def answer(path, rows, /, first="20240101", last="20241231", **header):
    """An answer of the API: numbers are numbers, and an empty cell is null."""
    numbers = ("poc", "sample_measurement", "latitude", "longitude")
    data = []
    for row in rows:
        cells = (f'"{name}": {text if name in numbers and text else json.dumps(text or None)}' for name, text in row.items())
        data.append("{" + ", ".join(cells) + "}")
    header = {"status": "Success", "url": ADDRESS.format(first, last), "rows": len(rows), **header}
    path.write_text('{"Header": [' + json.dumps(header) + '], "Data": [' + ",\n".join(data) + "]}")
    return path
