"""Uses the module of an installed wheel, over the library within it. packaging/test runs it."""

import ripsawbean

with ripsawbean.Database() as db:
    assert db.call("0 begin 10\n").text == "0 0 begin 10 => started\n"
assert ripsawbean.handles.LIBRARY._name.startswith(ripsawbean.__path__[0])
