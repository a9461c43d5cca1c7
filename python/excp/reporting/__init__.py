"""The forms of a report, each made of the lines of a record: text, JSON and a page.

A form takes a record and gives pieces of text, in the order in which they are printed. Text is made
as the record comes. JSON and a page keep what they print later in files without names.
"""
