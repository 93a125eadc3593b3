"""The forms of a report.

    words          the words of `-o`
    forms          the forms of a report on objects, and where it is written
    table          a table for people
    jsons          JSON
    junit          JUnit's XML
    sarif          SARIF 2.1.0
    github         annotations of GitHub Actions
    policyreport   PolicyReports of wgpolicyk8s.io
    texts          texts without what terminals and XML would obey
"""
