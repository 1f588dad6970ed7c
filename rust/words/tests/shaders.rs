//! A row in GLSL and SPIR-V words says the row's scope, order, classes and
//! flags, and nothing else.

use second::table::{Row, CONTROL_BARRIER};
use words::{glsl, spirv};

/// The names of scopes in both, and their codes.
const SCOPES: [(&str, u8); 5] = [
    ("Invocation", 0),
    ("Subgroup", 1),
    ("Workgroup", 2),
    ("QueueFamily", 3),
    ("Device", 4),
];

/// What is read back from the words: order, scope, classes, make flags and,
/// of a control barrier, the execution scope.
#[derive(Debug, Default, PartialEq, Eq)]
struct Said {
    order: u8,
    scope: u8,
    classes: u8,
    flags: u8,
    execution: u8,
}

fn said(row: Row) -> Said {
    Said {
        order: row.order,
        scope: row.scope,
        classes: row.classes,
        flags: row.flags & 6,
        execution: if row.kind == CONTROL_BARRIER {
            row.class
        } else {
            0
        },
    }
}

fn scope_of(name: &str) -> u8 {
    let scope = SCOPES.iter().find(|(other, _)| *other == name);
    scope.expect(name).1
}

fn order_of(name: &str) -> Option<u8> {
    let orders = ["Relaxed", "Acquire", "Release", "AcquireRelease"];
    let place = orders.iter().position(|other| *other == name);
    place.map(|order| order as u8)
}

fn flag_of(name: &str) -> Option<u8> {
    match name {
        "MakeAvailable" => Some(2),
        "MakeVisible" => Some(4),
        _ => None,
    }
}

/// Reads an instruction's last arguments back.
fn from_glsl(text: &str) -> Said {
    let call = text.trim_matches('`').strip_suffix(')').unwrap();
    let (name, arguments) = call.split_once('(').unwrap();
    let arguments: Vec<&str> = arguments.split(", ").collect();
    let [.., scope, storage, semantics] = arguments[..] else {
        panic!("{text}");
    };
    let mut said = Said {
        scope: scope_of(scope.strip_prefix("gl_Scope").unwrap()),
        ..Said::default()
    };
    if name == "controlBarrier" {
        said.execution = scope_of(arguments[0].strip_prefix("gl_Scope").unwrap());
    }
    let storages = ["Buffer", "Shared", "Image", "Output"];
    for one in storage.split(" | ") {
        let one = one.strip_prefix("gl_StorageSemantics").unwrap();
        let place = storages.iter().position(|other| *other == one);
        assert!(place.is_some() || one == "None", "{text}");
        said.classes |= place.map_or(0, |class| 1 << class);
    }
    for one in semantics.split(" | ") {
        let one = one.strip_prefix("gl_Semantics").unwrap();
        said.flags |= flag_of(one).unwrap_or(0);
        said.order |= order_of(one).unwrap_or(0);
        assert!(flag_of(one).is_some() || order_of(one).is_some(), "{one}");
    }
    said
}

fn from_spirv(text: &str) -> Said {
    let (_, operands) = text.split_once(" with ").unwrap();
    let mut said = Said::default();
    for operand in operands.split(", ") {
        let (kind, value) = operand.rsplit_once("scope ").unwrap_or(("", operand));
        match (kind, value.strip_prefix("semantics ")) {
            ("execution ", None) => said.execution = scope_of(value),
            ("" | "memory ", None) => said.scope = scope_of(value),
            (_, Some(semantics)) => {
                let memories = ["Uniform", "Workgroup", "Image", "Output"];
                for one in semantics.split(" | ").filter(|one| *one != "None") {
                    let class = one.strip_suffix("Memory").map(|name| {
                        let place = memories.iter().position(|other| *other == name);
                        1 << place.expect(one)
                    });
                    let known = [class, flag_of(one), order_of(one)];
                    assert_eq!(known.iter().flatten().count(), 1, "{one}");
                    said.classes |= class.unwrap_or(0);
                    said.flags |= flag_of(one).unwrap_or(0);
                    said.order |= order_of(one).unwrap_or(0);
                }
            }
            _ => panic!("{text}"),
        }
    }
    said
}

/// Every atomic, barrier and control barrier of every order, scope, class set
/// and flags is read back as it was.
#[test]
fn atomics_and_barriers_are_read_back() {
    let mut count = 0;
    for kind in 2..=6u8 {
        for (order, scope) in (0..4u8).flat_map(|order| (0..5u8).map(move |scope| (order, scope))) {
            for (classes, flags) in (0..16u8).flat_map(|set| [1, 3, 5, 7].map(|flag| (set, flag))) {
                let row = Row {
                    kind,
                    order,
                    scope,
                    classes,
                    flags,
                    class: scope.min(3),
                    ..Row::default()
                };
                assert_eq!(from_glsl(&glsl(row)), said(row));
                assert_eq!(from_spirv(&spirv(row)), said(row));
                count += 1;
            }
        }
    }
    assert_eq!(count, 6400);
}

#[test]
fn plain_accesses_have_their_operands() {
    let row = |kind, class, flags, scope| Row {
        kind,
        class,
        flags,
        scope,
        ..Row::default()
    };
    for (row, in_glsl, in_spirv) in [
        (
            row(1, 0, 3, 3),
            "a store to a variable declared `queuefamilycoherent`",
            "`OpStore` with MakePointerAvailable QueueFamily | NonPrivatePointer",
        ),
        (
            row(0, 1, 5, 2),
            "a load of a `shared` variable, which takes no qualifier: glslang makes such accesses non-private, available and visible in workgroup scope itself",
            "`OpLoad` with MakePointerVisible Workgroup | NonPrivatePointer",
        ),
        (
            row(0, 0, 1, 0),
            "a load of a variable declared `nonprivate`",
            "`OpLoad` with NonPrivatePointer",
        ),
        (
            row(1, 2, 3, 4),
            "an `imageStore` to an image declared `devicecoherent`",
            "`OpImageWrite` with MakeTexelAvailable Device | NonPrivateTexel",
        ),
        (
            row(0, 2, 0, 0),
            "an `imageLoad` of an image without a memory qualifier",
            "`OpImageRead` with no memory operand",
        ),
    ] {
        assert_eq!(glsl(row), in_glsl);
        assert_eq!(spirv(row), in_spirv);
    }
}
