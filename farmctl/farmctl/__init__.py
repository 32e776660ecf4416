"""farmctl: the one command by which an operator runs, watches, seeds and updates a tilefarm.

The program `tilefarm` is used as it is: farmctl stands beside it, and speaks to a farm as every client does, by
renderd's messages, over HTTP and by control lines.
"""
