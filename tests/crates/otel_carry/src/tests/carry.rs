//! Whole runs, from lines to a filled carrier.
use super::{BASE, sees};
use std::test::Fail;

#[test]
fn reports_a_run(rt: HostRuntime) -> Result<(), Fail> {
    for (input, report) in [
        (
            "attach a\nattach b\nattach c\ndetach 1\ndetach 2\nattach d\n",
            "attach 0: position 1\nattach 1: position 2\nattach 2: position 3\nattach 3: position 2\ncurrent: d\nbaggage=\ncontext-name=d\nextracted: none\n",
        ),
        (
            "attach a\nattach b\ndetach 0\n",
            "attach 0: position 1\nattach 1: position 2\ncurrent: b\nbaggage=\ncontext-name=b\nextracted: none\n",
        ),
        ("", BASE),
        ("\n\n", BASE),
        ("detach 0\n", BASE),
        ("detach 007\ndetach 18446744073709551615", BASE),
        (
            "detach 0\nattach a",
            "attach 0: position 1\ncurrent: a\nbaggage=\ncontext-name=a\nextracted: none\n",
        ),
        (
            "attach !~\n",
            "attach 0: position 1\ncurrent: !~\nbaggage=\ncontext-name=!~\nextracted: none\n",
        ),
        (
            "attach a\ndetach 0\n",
            "attach 0: position 1\ncurrent: base\nbaggage=\nextracted: none\n",
        ),
    ] {
        sees(&rt, rt.alloc(), input.as_bytes(), report, 0)?;
    }
    Ok(())
}

/// A run of attaches, of which the first or the second has a span context.
#[test]
fn reports_what_the_headers_carry(rt: HostRuntime) -> Result<(), Fail> {
    for (input, report) in [
        (
            "attach a v=1\n",
            "attach 0: position 1\ncurrent: a\nbaggage=\ncontext-name=a\ntraceparent=00-00000000000000000000000000000001-0000000000000001-01\ntracestate=v=1\nextracted: 00000000000000000000000000000001 0000000000000001\n",
        ),
        (
            "attach a \n",
            "attach 0: position 1\ncurrent: a\nbaggage=\ncontext-name=a\ntraceparent=00-00000000000000000000000000000001-0000000000000001-01\ntracestate=\nextracted: 00000000000000000000000000000001 0000000000000001\n",
        ),
        (
            "attach a  v=1 ,,\tw= 2\t\n",
            "attach 0: position 1\ncurrent: a\nbaggage=\ncontext-name=a\ntraceparent=00-00000000000000000000000000000001-0000000000000001-01\ntracestate=v=1,w= 2\nextracted: 00000000000000000000000000000001 0000000000000001\n",
        ),
        (
            "attach a v=1\nattach b w=2\ndetach 1\n",
            "attach 0: position 1\nattach 1: position 2\ncurrent: a\nbaggage=\ncontext-name=a\ntraceparent=00-00000000000000000000000000000001-0000000000000001-01\ntracestate=v=1\nextracted: 00000000000000000000000000000001 0000000000000001\n",
        ),
        (
            "attach a\nattach b v=1,w=2\n",
            "attach 0: position 1\nattach 1: position 2\ncurrent: b\nbaggage=\ncontext-name=b\ntraceparent=00-00000000000000000000000000000002-0000000000000002-01\ntracestate=v=1,w=2\nextracted: 00000000000000000000000000000002 0000000000000002\n",
        ),
        (
            "attach a\nattach b v=1,v=2\n",
            "attach 0: position 1\nattach 1: position 2\ncurrent: b\nbaggage=\ncontext-name=b\ntraceparent=00-00000000000000000000000000000002-0000000000000002-01\ntracestate=v=1\nextracted: 00000000000000000000000000000002 0000000000000002\n",
        ),
        (
            "attach x a=1,a=2\n",
            "attach 0: position 1\ncurrent: x\nbaggage=\ncontext-name=x\ntraceparent=00-00000000000000000000000000000001-0000000000000001-01\ntracestate=a=1\nextracted: 00000000000000000000000000000001 0000000000000001\n",
        ),
        (
            "attach a v=1\nattach b\n",
            "attach 0: position 1\nattach 1: position 2\ncurrent: b\nbaggage=\ncontext-name=b\nextracted: none\n",
        ),
    ] {
        sees(&rt, rt.alloc(), input.as_bytes(), report, 0)?;
    }
    Ok(())
}
