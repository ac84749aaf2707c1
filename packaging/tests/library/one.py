"""The first call by the module for Python, over the installed library. in_fresh beside this folder runs it."""

import ripsawbean

with ripsawbean.Database() as db:
    assert db.call("0 begin 10\n").text == "0 0 begin 10 => started\n"
assert ripsawbean.handles.LIBRARY._name == "libripsawbean.so.0"
