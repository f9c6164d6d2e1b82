"""Tests of the kit have the plugin of field/test/report.py, a lab, a venue, a desk and a browser."""

pytest_plugins = ["report", "lender", "lab_fixture", "venue_fixture", "desk_fixture"]
