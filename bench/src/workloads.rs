//! The work that is measured: each workload is written for GPM and for m4, with the output that both must give. In m4
//! parameters are quoted where GPM copies them unscanned.
use crate::names;

const LINE: &str = "the coin meter reads 41250 at noon\n";

pub struct Workload {
    pub name: String,
    pub gpm: String,
    pub m4: String,
    pub output: String,
}

/// All of them, at sizes that the program `gpm` has room for.
pub fn all() -> Vec<Workload> {
    vec![
        plain(1_850),
        quoted(1_650),
        calls(7_200),
        nesting(500, 30),
        counting(100, 100),
        choosing(100, 100),
        wheel(8, 1_100),
        oldest(1_000, 2_000),
        newest(1_000, 2_000),
        even_groups(1_000, 2_000),
        one_group(1_000, 2_000),
        group_of_def(1_000, 2_000),
        long_arguments(8_000, 8),
        dropped(2_900),
    ]
}

/// No text at all: what it takes to start.
pub fn nothing() -> Workload {
    Workload {
        name: "empty text".to_string(),
        gpm: String::new(),
        m4: String::new(),
        output: String::new(),
    }
}

/// Text without signs.
pub fn plain(lines: usize) -> Workload {
    let text = LINE.repeat(lines);
    Workload {
        name: "plain text".to_string(),
        gpm: text.clone(),
        m4: text.clone(),
        output: text,
    }
}

/// Quotes in quotes. m4 is given GPM's quotes, since inner ones are copied.
pub fn quoted(lines: usize) -> Workload {
    let text = "<the coin meter reads <41250> at noon>\n".repeat(lines);
    Workload {
        name: "quoted text".to_string(),
        m4: format!("changequote(<,>){text}"),
        gpm: text,
        output: "the coin meter reads <41250> at noon\n".repeat(lines),
    }
}

/// A small macro with two parameters.
pub fn calls(count: usize) -> Workload {
    Workload {
        name: "many calls".to_string(),
        gpm: format!("$DEF,m,<[~1|~2]>;{}", "$m,a,b;\n".repeat(count)),
        m4: format!("define(`m',`[`$1'|`$2']'){}", "m(a,b)\n".repeat(count)),
        output: "[a|b]\n".repeat(count),
    }
}

/// Calls in the arguments of calls, so deep and so many times.
pub fn nesting(depth: usize, times: usize) -> Workload {
    let around = |open: &str, close: &str| format!("{}x{}\n", open.repeat(depth), close.repeat(depth)).repeat(times);
    Workload {
        name: "deep nesting".to_string(),
        gpm: format!("$DEF,i,<[~1]>;{}", around("$i,", ";")),
        m4: format!("define(`i',`[`$1']'){}", around("i(", ")")),
        output: around("[", "]"),
    }
}

/// A loop that counts down to 0, by recursion and Strachey's conditional, so many times.
pub fn counting(from: usize, times: usize) -> Workload {
    looping(
        "counted loop",
        "$DEF,loop,<$~1,$DEF,~1,<~0.$loop,$-,~0,1;;>;$DEF,0,<>;;>;",
        from,
        times,
    )
}

/// The same loop by IF and SEQ, which choose the macro that is called.
pub fn choosing(from: usize, times: usize) -> Workload {
    let defined = "$DEF,loop,<$$IF,$SEQ,~1,0;,end,1,go;,~1;>;$DEF,end,;$DEF,go,<~1.$loop,$-,~1,1;;>;";
    looping("loop by IF", defined, from, times)
}

fn looping(name: &str, defined: &str, from: usize, times: usize) -> Workload {
    let counted: String = (1..=from).rev().map(|number| format!("{number}.")).collect();
    Workload {
        name: name.to_string(),
        gpm: format!("{defined}{}", format!("$loop,{from};\n").repeat(times)),
        m4: format!(
            "define(`loop',`ifelse($1,0,,`$1.loop(decr($1))')'){}",
            format!("loop({from})\n").repeat(times)
        ),
        output: format!("{counted}\n").repeat(times),
    }
}

/// Up from each entry of a menu that comes round, so many times. m4's remainder has the dividend's sign.
pub fn wheel(entries: usize, times: usize) -> Workload {
    let from_each = |open: &str, close: &str| {
        let round: String = (0..entries).map(|entry| format!("{open}{entry}{close}")).collect();
        format!("{round}\n").repeat(times)
    };
    let above: String = (0..entries)
        .map(|entry| format!("{} ", (entry + entries - 1) % entries))
        .collect();
    Workload {
        name: "menu wheel".to_string(),
        gpm: format!("$DEF,up,<$Rem,$-,~1,1;,{entries};>;{}", from_each("$up,", "; ")),
        m4: format!(
            "define(`up',`eval((($1-1)%{entries}+{entries})%{entries})'){}",
            from_each("up(", ") ")
        ),
        output: format!("{above}\n").repeat(times),
    }
}

/// Calls of the first of so many definitions.
pub fn oldest(definitions: usize, calls: usize) -> Workload {
    one_of("oldest definition", &numbered(definitions), 0, calls)
}

/// Calls of the last of so many definitions.
pub fn newest(definitions: usize, calls: usize) -> Workload {
    one_of("newest definition", &numbered(definitions), definitions - 1, calls)
}

/// Calls of the first of so many definitions, which are spread evenly over the groups of the index.
pub fn even_groups(definitions: usize, calls: usize) -> Workload {
    one_of("even groups", &names::spread(definitions), 0, calls)
}

/// The same where all of them are in one group, in which no built-in is.
pub fn one_group(definitions: usize, calls: usize) -> Workload {
    one_of("one group", &names::together(definitions, "n"), 0, calls)
}

/// The same where that is the group of DEF, so that every definition passes those made before.
pub fn group_of_def(definitions: usize, calls: usize) -> Workload {
    one_of("group of DEF", &names::together(definitions, "DEF"), 0, calls)
}

/// Of a thousand the first and the last are alone in their groups.
fn numbered(definitions: usize) -> Vec<String> {
    (0..definitions).map(|at| format!("n{at:04}")).collect()
}

fn one_of(work: &str, names: &[String], which: usize, calls: usize) -> Workload {
    let define = |one: fn((usize, &String)) -> String| names.iter().enumerate().map(one).collect::<String>();
    let called = &names[which];
    Workload {
        name: work.to_string(),
        gpm: define(|(at, name)| format!("$DEF,{name},v{at:04};")) + &format!("${called};\n").repeat(calls),
        m4: define(|(at, name)| format!("define(`{name}',`v{at:04}')")) + &format!("{called}\n").repeat(calls),
        output: format!("v{which:04}\n").repeat(calls),
    }
}

/// One parameter of so many bytes, quoted and copied unscanned.
pub fn long_arguments(length: usize, times: usize) -> Workload {
    let argument = &LINE.repeat(length / LINE.len() + 1)[..length];
    Workload {
        name: "long arguments".to_string(),
        gpm: format!("$DEF,m,<[~1]>;{}", format!("$m,<{argument}>;\n").repeat(times)),
        m4: format!("define(`m',`[`$1']'){}", format!("m(`{argument}')\n").repeat(times)),
        output: format!("[{argument}]\n").repeat(times),
    }
}

/// Definitions that go with the call in whose list they were made.
pub fn dropped(count: usize) -> Workload {
    Workload {
        name: "dropped definitions".to_string(),
        gpm: "$t,x$DEF,t,<[~1]>;;\n".repeat(count),
        m4: "pushdef(`t',`[`$1']')t(x)popdef(`t')\n".repeat(count),
        output: "[x]\n".repeat(count),
    }
}
