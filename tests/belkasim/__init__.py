"""What the test suites share: objects of STIX, tables of rows, HTTP messages, a server under test, and the count of what passed."""
