"""A debugger of channel programs: the steps of a run, with storage and medium at each.

    recording = read_recording(record)   # of excp_tools, with all steps
    walk = Walk(Run(recording, set_up))  # before the first command of the first request
    walk.forward()                       # does the next command, or the post
    walk.back()                          # undoes it
"""
