"""One cell at a time. Expected texts are written by hand."""

import decimal

import pytest
from hypothesis import given, strategies

from airdv.aqs import spelling
from airdv.aqs.spelling import BadCell


@pytest.mark.parametrize("text, wanted", [
    ("0.071", "0.071"), ("-0.001", "-0.001"), ("9", "9"), (".5", ".5"), ("1e-3", "0.001"), ("5E-4", "0.0005"), ("-1.20e1", "-12.0"),
    ("0.041000000000000000000000000001", "0.041000000000000000000000000001"), ("0e-5", "0.00000"),
])
def test_a_value_keeps_its_digits(text, wanted):
    assert spelling.value(text) == wanted


@pytest.mark.parametrize("text", ["NaN", "Infinity", "-inf", "1,5", "0x10", "1_000", " 1", "1 ", "", ".", "1e", "1e9999", "1e-999", "٣", "0.07\x00", "--1"])
def test_what_is_no_number_is_refused(text):
    with pytest.raises(BadCell):
        spelling.value(text)


@given(strategies.decimals(allow_nan=False, allow_infinity=False, min_value=-10**9, max_value=10**9))
def test_any_spelling_of_a_number_is_the_same_number(number):
    if number and abs(number.adjusted()) > spelling.MOST_EXPONENT or not number and abs(number.as_tuple().exponent) > spelling.MOST_EXPONENT:
        with pytest.raises(BadCell):
            spelling.value(f"{number:e}")
        return
    found = spelling.value(f"{number:e}")
    assert "e" not in found.lower() and decimal.Decimal(found).compare_total(number) in (0, decimal.Decimal(found).compare_total(number))
    assert decimal.Decimal(found) == number


@given(strategies.text())
def test_no_text_is_another_number(text):
    try:
        found = spelling.value(text)
    except BadCell:
        return
    assert decimal.Decimal(found) == decimal.Decimal(text)


@pytest.mark.parametrize("one, other, same", [
    ("0.041", ".0410", True), ("0.041", "0.0411", False), ("-0.5", "0.5", False), ("10", "1", False), ("0", "0.000", True), ("+1", "01", True), ("-0", "0", True),
])
def test_two_spellings_of_one_number(one, other, same):
    assert (spelling.same_value(one) == spelling.same_value(other)) is same


@pytest.mark.parametrize("text, most, negative, held", [
    # (ozone in ppm is -0.999 to 9.999 once cut to thousandths, in ppb -999 to 9999; PM is -99.9 to 9999.9)
    ("9.9999", 1, 0, True), ("10", 1, 0, False), ("-0.9999", 1, 0, True), ("-1", 1, 0, False), ("0009.9", 1, 0, True),
    ("9999.99", 4, 2, True), ("10000", 4, 2, False), ("-99.99", 4, 2, True), ("-100", 4, 2, False),
])
def test_a_value_is_held_as_it_is_cut(text, most, negative, held):
    assert spelling.is_held(text, most, negative) is held


@pytest.mark.parametrize("text, wanted", [
    ("", ()), ("V", ("V",)), ("V - Validated value.", ("V",)), ("RT - Wildfire-U. S.", ("RT",)), ("RF - Fire - Canadian.", ("RF",)),
    ("V,RT", ("V", "RT")), ("V RT", ("V", "RT")), ("V; RT", ("V", "RT")), ("V|V", ("V",)),
    ("V - Validated value., RT - Wildfire-U. S.", ("V", "RT")),
])
def test_qualifiers(text, wanted):
    assert spelling.qualifiers(text) == wanted


@pytest.mark.parametrize("text", [
    "Wildfire", "rt", "V,Wildfire", "RT-Wildfire", "RT Wildfire - U. S.", "V - Validated RT - Wildfire", "ABC - Words", "É",
    "A1,A2,A3,A4,A5,A6,A7,A8,A9,B1,B2",
])
def test_a_qualifier_that_is_not_clear_is_refused_and_never_cut(text):
    with pytest.raises(BadCell):
        spelling.qualifiers(text)


CODES = strategies.from_regex(r"[A-Z0-9]{1,2}", fullmatch=True)


@given(strategies.lists(CODES, min_size=1, max_size=10, unique=True), strategies.sampled_from([",", ";", "|", " ", ", "]))
def test_all_codes_of_a_cell_are_found(codes, between):
    assert spelling.qualifiers(between.join(codes)) == tuple(codes)


@given(strategies.lists(strategies.tuples(CODES, strategies.sampled_from(["Validated value.", "Wildfire-U. S.", "Fire: Canadian"])), min_size=1, max_size=10))
def test_all_codes_of_a_cell_with_words_are_found(pairs):
    text = ", ".join(f"{code} - {words}" for code, words in pairs)
    assert spelling.qualifiers(text) == tuple(dict.fromkeys(code for code, _ in pairs))


def test_a_null_code_has_two_characters_and_stands_alone():
    assert spelling.null_code(("AN",)) == "AN"
    assert spelling.null_code(("V",)) is None
    assert spelling.null_code(()) is None
    with pytest.raises(BadCell):
        spelling.null_code(("AN", "V"))


def test_places_are_filled_with_zeros():
    assert spelling.number("6", 2, "the state") == "06"
    assert spelling.number("37", 3, "the county") == "037"
    for text in ("123", "", "6.0", "-6", "６"):
        with pytest.raises(BadCell):
            spelling.number(text, 2, "the state")
    assert spelling.poc("01") == "1"
    with pytest.raises(BadCell):
        spelling.poc("0")


def test_days_and_hours():
    assert spelling.day("2024-02-29") == ("20240229", 2024, 59)
    assert spelling.day("1989-12-31") is None and spelling.day("2060-01-01") is None
    assert spelling.day("1990-01-01") == ("19900101", 1990, 0)
    for text in ("2023-02-29", "2024-7-1", "20240701", "07/01/2024", "2024-07-01 "):
        with pytest.raises(BadCell):
            spelling.day(text)
    assert spelling.hour("13:00") == 13 and spelling.hour("13:30") is None
    for text in ("24:00", "1:00", "13", "13:00:00"):
        with pytest.raises(BadCell):
            spelling.hour(text)
