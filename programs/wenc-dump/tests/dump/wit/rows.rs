//! Components with one feature of WIT each, made by calls, and the world of each. The official
//! parser reads these texts and makes components of them that print the same (`gate/wit`).

use wenc::{
    Alias, ComponentBuilder, ComponentDefinedTypeEncoder, ComponentExportKind, ComponentExternName,
    ComponentOuterAliasKind, ComponentType, ComponentTypeRef as Ref, ComponentValType as Val,
    InstanceType, PrimitiveValType as Primitive, TypeBounds,
};

/// A component, and what is printed of it.
pub struct Row {
    pub name: &'static str,
    pub component: Vec<u8>,
    /// The items of the world, and the packages after it.
    pub world: &'static str,
    pub packages: &'static str,
}

const RESOURCE: Ref = Ref::Type(TypeBounds::SubResource);
const U32: Val = Val::Primitive(Primitive::U32);
const TEXT: Val = Val::Primitive(Primitive::String);

/// An interface whose types and functions are added by name.
#[derive(Default)]
struct Interface(InstanceType);

impl Interface {
    fn resource(&mut self, name: &str) -> u32 {
        self.0.export(name, RESOURCE);
        self.0.type_count() - 1
    }

    fn same(&mut self, name: &str, ty: u32) -> u32 {
        self.0.export(name, Ref::Type(TypeBounds::Eq(ty)));
        self.0.type_count() - 1
    }

    fn defined(&mut self, define: impl FnOnce(ComponentDefinedTypeEncoder<'_>)) -> Val {
        let index = self.0.type_count();
        define(self.0.ty().defined_type());
        Val::Type(index)
    }

    fn named(&mut self, name: &str, define: impl FnOnce(ComponentDefinedTypeEncoder<'_>)) -> Val {
        let Val::Type(index) = self.defined(define) else { unreachable!() };
        Val::Type(self.same(name, index))
    }

    fn outer(&mut self, index: u32) -> u32 {
        let kind = ComponentOuterAliasKind::Type;
        self.0.alias(Alias::Outer { kind, count: 1, index });
        self.0.type_count() - 1
    }

    fn function(&mut self, name: &str, params: &[(&str, Val)], result: Option<Val>) {
        let index = self.0.type_count();
        self.0.ty().function().params(params.iter().copied()).result(result);
        self.0.export(name, Ref::Func(index));
    }

    fn own(&mut self, resource: u32) -> Val {
        self.defined(|ty| ty.own(resource))
    }

    fn borrow(&mut self, resource: u32) -> Val {
        self.defined(|ty| ty.borrow(resource))
    }

    fn method(&mut self, name: &str, resource: u32) {
        let this = self.borrow(resource);
        self.function(name, &[("self", this)], None);
    }
}

/// A component.
#[derive(Default)]
struct Component(ComponentBuilder);

impl Component {
    fn interface(&mut self, name: &str, fill: impl FnOnce(&mut Interface)) -> u32 {
        let mut interface = Interface::default();
        fill(&mut interface);
        let ty = self.0.type_instance(None, &interface.0);
        self.0.import(name, Ref::Instance(ty))
    }

    fn defined(&mut self, define: impl FnOnce(ComponentDefinedTypeEncoder<'_>)) -> u32 {
        let (index, encoder) = self.0.type_defined(None);
        define(encoder);
        index
    }

    fn type_of(&mut self, instance: u32, name: &str) -> u32 {
        self.0.alias_export(instance, name, ComponentExportKind::Type)
    }

    fn function(&mut self, name: &str, params: &[(&str, Val)], result: Option<Val>) -> u32 {
        let (ty, mut encoder) = self.0.type_function(None);
        encoder.params(params.iter().copied()).result(result);
        self.0.import(name, Ref::Func(ty))
    }

    fn export(&mut self, name: &str, instance: u32) {
        self.0.export(name, ComponentExportKind::Instance, instance, None);
    }
}

/// Makes a world that imports the interface `a:b/c` alone, with these items.
macro_rules! interface {
    ($name:literal, $fill:expr, $items:literal) => {
        || {
            let mut component = Component::default();
            component.interface("a:b/c", $fill);
            Row {
                name: $name,
                component: component.0.finish(),
                world: "  import a:b/c;\n",
                packages: concat!("\npackage a:b {\n  interface c {\n", $items, "  }\n}\n"),
            }
        }
    };
}

/// Makes a component and what is printed of it.
macro_rules! component {
    ($name:literal, $fill:expr, $world:literal, $packages:literal) => {
        || {
            let mut component = Component::default();
            let fill: fn(&mut Component) = $fill;
            fill(&mut component);
            Row { name: $name, component: component.0.finish(), world: $world, packages: $packages }
        }
    };
}

/// Types of values.
const TYPES: &[fn() -> Row] = &[
    interface!(
        "resource",
        |of| {
            let file = of.resource("file");
            let (own, borrow) = (of.own(file), of.borrow(file));
            of.function("[constructor]file", &[("name", TEXT)], Some(own));
            of.function("[method]file.read", &[("self", borrow), ("n", U32)], Some(TEXT));
            of.function("[static]file.open", &[("n", U32)], Some(own));
            of.function("take", &[("f", own), ("g", borrow)], Some(own));
        },
        "    resource file {
      constructor(name: string);
      read: func(n: u32) -> string;
      open: static func(n: u32) -> file;
    }
    take: func(f: file, g: borrow<file>) -> file;
"
    ),
    interface!(
        "constructor that may fail",
        |of| {
            let resource = of.resource("r");
            let own = of.own(resource);
            let result = of.defined(|ty| ty.result(Some(own), Some(TEXT)));
            of.function("[constructor]r", &[], Some(result));
        },
        "    resource r {\n      constructor() -> result<r, string>;\n    }\n"
    ),
    interface!(
        "composite types",
        |of| {
            let list = of.defined(|ty| ty.list(U32));
            let pair = of.defined(|ty| ty.tuple([list, TEXT]));
            let result = of.defined(|ty| ty.result(None, Some(pair)));
            let option = of.defined(|ty| ty.option(result));
            let array = of.defined(|ty| ty.fixed_length_list(U32, 4));
            let map = of.defined(|ty| ty.map(TEXT, list));
            let future = of.defined(|ty| ty.future(None));
            let stream = of.defined(|ty| ty.stream(Some(U32)));
            let point = of.named("point", |ty| ty.record([("x", U32), ("y", array)]));
            let shape = of.named("shape", |ty| ty.variant([("dot", Some(point)), ("none", None)]));
            let set = of.named("set", |ty| ty.flags(["a", "b"]));
            let one = of.named("one", |ty| ty.enum_type(["a", "b"]));
            let params =
                [("a", option), ("b", map), ("c", future), ("d", stream), ("e", shape), ("f", set)];
            of.function("f", &params, Some(one));
        },
        "    record point {
      x: u32,
      y: list<u32, 4>,
    }
    variant shape {
      dot(point),
      none,
    }
    flags set {
      a,
      b,
    }
    enum one {
      a,
      b,
    }
    f: func(a: option<result<_, tuple<list<u32>, string>>>, b: map<string, list<u32>>, \
             c: future, d: stream<u32>, e: shape, f: set) -> one;
"
    ),
    interface!(
        "names of types",
        |of| {
            let resource = of.resource("r");
            let own = of.own(resource);
            let Val::Type(index) = own else { unreachable!() };
            let handle = of.same("handle", index);
            let same = of.same("same", resource);
            let borrow = of.borrow(same);
            let list = of.defined(|ty| ty.list(U32));
            of.function("f", &[("a", list), ("b", Val::Type(handle)), ("c", borrow)], None);
            let Val::Type(index) = list else { unreachable!() };
            let later = of.same("later", index);
            of.function("g", &[("a", Val::Type(later))], None);
        },
        "    type handle = own<r>;
    type same = r;
    type later = list<u32>;
    resource r;
    f: func(a: later, b: handle, c: borrow<same>);
    g: func(a: later);
"
    ),
    interface!(
        "keywords",
        |of| {
            let list = of.named("list", |ty| ty.record([("record", U32), ("string", TEXT)]));
            of.function("func", &[("borrow", list)], None);
            let resource = of.resource("resource");
            of.method("[method]resource.static", resource);
            of.function("HTTP2-get", &[("URL", TEXT)], None);
        },
        "    record %list {
      %record: u32,
      %string: string,
    }
    resource %resource {
      %static: func();
    }
    %func: func(%borrow: %list);
    HTTP2-get: func(URL: string);
"
    ),
];

/// What WIT has no form for.
const NOTES: &[fn() -> Row] = &[
    interface!(
        "types without members",
        |of| {
            of.named("r", |ty| ty.record::<[(&str, Val); 0], _>([]));
            of.named("t", |ty| ty.tuple::<[Val; 0], _>([]));
            of.named("l", |ty| ty.fixed_length_list(U32, 0));
            of.function("f", &[], None);
        },
        "    // no WIT: a type without members at 0xd
    // no WIT: a type without members at 0x17
    // no WIT: a type without members at 0x21
    f: func();
"
    ),
    interface!(
        "names that are there",
        |of| {
            of.function("f", &[("a", U32), ("A", U32)], None);
            of.named("r", |ty| ty.record([("a", U32), ("a", U32)]));
            of.function("g", &[], None);
            of.function("G", &[], None);
            let resource = of.resource("s");
            of.method("[method]s.s", resource);
            of.method("[method]s.m", resource);
            of.function("[static]s.m", &[], None);
        },
        "    // no WIT: a name that is there already at 0x1f
    resource s {
      // no WIT: a name that is there already at 0x59
      m: func();
      // no WIT: a name that is there already at 0x8c
    }
    // no WIT: a name that is there already at 0xe
    g: func();
    // no WIT: a name that is there already at 0x3f
"
    ),
    interface!(
        "functions of resources",
        |of| {
            let resource = of.resource("r");
            let same = of.same("s", resource);
            of.function("[method]r.first", &[("this", U32)], None);
            of.function("[method]r.none", &[], None);
            of.function("[constructor]r", &[], Some(U32));
            of.method("[method]s.of-alias", same);
            of.method("[method]t.of-none", resource);
            of.function("[get]r.other", &[], None);
        },
        "    type s = r;
    resource r {
      // no WIT: a method without its resource at 0x26
      // no WIT: a method without its resource at 0x3f
      // no WIT: a constructor of another type at 0x57
      // no WIT: a function of another kind at 0xb8
    }
    // no WIT: a function of no resource here at 0x78
    // no WIT: a function of no resource here at 0x9d
"
    ),
    interface!(
        "types that are refused",
        |of| {
            let resource = of.resource("r");
            let borrow = of.borrow(resource);
            let list = of.defined(|ty| ty.list(borrow));
            of.function("f", &[], Some(list));
            let keys = of.defined(|ty| ty.map(Primitive::F32, U32));
            of.function("g", &[("m", keys)], None);
            let stream = of.defined(|ty| ty.stream(Some(Primitive::Char.into())));
            of.function("h", &[("s", stream)], None);
            let names = ["a", "b", "c", "d", "e", "f", "g", "h", "i", "j", "k"];
            let all: Vec<String> =
                (0..3).flat_map(|n| names.map(|name| format!("{name}{n}"))).collect();
            of.named("set", |ty| ty.flags(all.iter().map(|name| name.as_str())));
        },
        "    // no WIT: more than 32 flags at 0x49
    resource r;
    // no WIT: a function that returns a borrowed handle at 0x1f
    // no WIT: a map with keys of another type at 0x25
    // no WIT: a stream with elements of another type at 0x37
"
    ),
    interface!(
        "names that aren't of WIT",
        |of| {
            of.function("f\u{1b}[0m", &[], None);
            of.function("f; g: func()", &[], None);
            of.function("a--b", &[], None);
            of.function("aB", &[], None);
            of.function("g", &[("a b", U32)], None);
        },
        "    // no WIT: a name that isn't one of WIT at 0x12
    // no WIT: a name that isn't one of WIT at 0x21
    // no WIT: a name that isn't one of WIT at 0x37
    // no WIT: a name that isn't one of WIT at 0x45
    // no WIT: a name that isn't one of WIT at 0x4c
"
    ),
    component!(
        "names of interfaces",
        |of| {
            for name in [
                "a:b/c@1",
                "a:b/c@1.0.0-01",
                "a:b:c/d",
                "A:b/c",
                "unlocked-dep=<a:b>",
                "url=<https://a.b>",
                "integrity=<sha256-a>",
            ] {
                of.interface(name, |_| {});
            }
        },
        "  // no WIT: a name that isn't one of WIT at 0x10
  // no WIT: a name that isn't one of WIT at 0x23
  // no WIT: a name that isn't one of WIT at 0x3d
  // no WIT: a name that isn't one of WIT at 0x50
  // no WIT: a name that isn't one of WIT at 0x61
  // no WIT: a name that isn't one of WIT at 0x7f
  // no WIT: a name that isn't one of WIT at 0x9c
",
        ""
    ),
    component!(
        "options of names",
        |of| {
            let ty = of.0.type_instance(None, &InstanceType::new());
            let mut name = ComponentExternName::from("first");
            name.implements = Some("a:b/c".into());
            of.0.import(name, Ref::Instance(ty));
            let mut name = ComponentExternName::from("second");
            name.external_id = Some("other".into());
            of.0.import(name, Ref::Instance(ty));
            let mut name = ComponentExternName::from("a:b/c@1");
            name.version_suffix = Some(".2.3".into());
            of.0.import(name, Ref::Instance(ty));
        },
        "  // no WIT: the name of an interface that is implemented at 0x10
  import first: interface {
  }
  // no WIT: the external name of an item at 0x21
  import second: interface {
  }
  import a:b/c@1.2.3;
",
        "\npackage a:b@1.2.3 {\n  interface c {\n  }\n}\n"
    ),
];

/// Interfaces that use types of others, and worlds that do.
const USES: &[fn() -> Row] = &[
    component!(
        "use",
        |of| {
            let types = of.interface("a:b/types@0.1.0", |of| {
                of.resource("res");
                of.named("rec", |ty| ty.record([("x", U32)]));
            });
            let types = [of.type_of(types, "res"), of.type_of(types, "rec")];
            for name in ["a:b/user@0.1.0", "c:d/user"] {
                of.interface(name, |of| {
                    let [res, rec] = types.map(|ty| of.outer(ty));
                    let (res, rec) = (of.same("r2", res), of.same("rec", rec));
                    let own = of.own(res);
                    of.function("f", &[("a", own), ("b", Val::Type(rec))], None);
                });
            }
        },
        "  import a:b/types@0.1.0;\n  import a:b/user@0.1.0;\n  import c:d/user;\n",
        "
package a:b@0.1.0 {
  interface types {
    record rec {
      x: u32,
    }
    resource res;
  }
  interface user {
    use types.{res as r2};
    use types.{rec};
    f: func(a: r2, b: rec);
  }
}

package c:d {
  interface user {
    use a:b/types@0.1.0.{res as r2};
    use a:b/types@0.1.0.{rec};
    f: func(a: r2, b: rec);
  }
}
"
    ),
    component!(
        "types of a world",
        |of| {
            let types = of.interface("a:b/types", |of| {
                of.named("rec", |ty| ty.record([("x", U32)]));
            });
            let other = of.type_of(types, "rec");
            let rec = of.defined(|ty| ty.record([("y", TEXT)]));
            let rec = of.0.import("rec", Ref::Type(TypeBounds::Eq(rec)));
            let res = of.0.import("res", RESOURCE);
            let borrow = of.defined(|ty| ty.borrow(res));
            let params = [("self", Val::Type(borrow)), ("p", Val::Type(rec))];
            of.function("[method]res.m", &params, None);
            of.function("g", &[("p", Val::Type(other)), ("q", Val::Type(rec))], None);
        },
        "  record rec {
    y: string,
  }
  resource res {
    m: func(p: rec);
  }
  import a:b/types;
  use a:b/types.{rec as rec-n1};
  import g: func(p: rec-n1, q: rec);
",
        "
package a:b {
  interface types {
    record rec {
      x: u32,
    }
  }
}
"
    ),
    component!(
        "interfaces without packages",
        |of| {
            let inline = of.interface("inline", |of| {
                of.named("rec", |ty| ty.record([("x", U32)]));
                of.resource("res");
            });
            let [rec, res] = ["rec", "res"].map(|name| of.type_of(inline, name));
            let rec = of.0.import("rec", Ref::Type(TypeBounds::Eq(rec)));
            of.0.import("res", Ref::Type(TypeBounds::Eq(res)));
            of.function("g", &[("p", Val::Type(rec))], None);
        },
        "  // no WIT: a resource of an interface without a name at 0x4d
  record rec {
    x: u32,
  }
  import inline: interface {
    record rec {
      x: u32,
    }
    resource res;
  }
  import g: func(p: rec);
",
        ""
    ),
    component!(
        "exports of imports",
        |of| {
            let types = of.interface("a:b/x", |of| _ = of.resource("res"));
            of.export("a:b/y", types);
            let res = of.type_of(types, "res");
            of.interface("a:b/z", |of| {
                let res = of.outer(res);
                let res = of.same("res", res);
                let own = of.own(res);
                of.function("f", &[("a", own)], None);
            });
        },
        "  import a:b/x;\n  import a:b/z;\n  export a:b/y;\n",
        "
package a:b {
  interface x {
    resource res;
  }
  interface y {
    use x.{res};
  }
  interface z {
    use x.{res};
    f: func(a: res);
  }
}
"
    ),
    component!(
        "a resource that is imported and exported",
        |of| {
            let types = of.interface("a:b/x", |of| _ = of.resource("res"));
            of.export("a:b/x", types);
        },
        "  import a:b/x;\n  export a:b/x;\n",
        "
package a:b {
  interface x {
    // no WIT: a resource that is imported and exported under one name at 0xd
  }
}
"
    ),
    component!(
        "an interface that isn't the same twice",
        |of| {
            of.interface("a:b/x", |of| {
                of.function("f", &[("a", U32)], None);
                of.function("g", &[], None);
            });
            let other = of.interface("other", |of| of.function("f", &[("b", TEXT)], None));
            of.export("a:b/x", other);
        },
        "  import a:b/x;
  import other: interface {
    f: func(b: string);
  }
  export a:b/x;
",
        "
package a:b {
  interface x {
    // no WIT: an item that differs between import and export at 0x15
    f: func(b: string);
    g: func();
  }
}
"
    ),
    component!(
        "packages that depend on each other",
        |of| {
            let first = of.interface("a:b/first", |of| {
                of.named("t", |ty| ty.record([("x", U32)]));
            });
            let first = of.type_of(first, "t");
            let second = of.interface("c:d/second", |of| {
                let ty = of.outer(first);
                of.same("t", ty);
            });
            let second = of.type_of(second, "t");
            of.interface("a:b/third", |of| {
                let ty = of.outer(second);
                of.same("t", ty);
            });
        },
        "  import a:b/first;\n  import c:d/second;\n  import a:b/third;\n",
        "
package a:b {
  interface first {
    record t {
      x: u32,
    }
  }
  interface third {
    // no WIT: a type of an interface that can't be used here at 0x66
  }
}

package c:d {
  interface second {
    // no WIT: a type of an interface that can't be used here at 0x3c
  }
}
"
    ),
    component!(
        "ascribed types",
        |of| {
            let all = of.interface("a:b/c", |of| {
                of.function("f", &[], None);
                of.function("g", &[], None);
            });
            let mut part = Interface::default();
            part.function("f", &[], None);
            let ty = of.0.type_instance(None, &part.0);
            let kind = ComponentExportKind::Instance;
            of.0.export("a:b/d", kind, all, Some(Ref::Instance(ty)));
            let f = of.function("f", &[("x", U32)], None);
            let (ty, mut encoder) = of.0.type_function(None);
            encoder.params([("renamed", U32)]).result(None);
            of.0.export("g", ComponentExportKind::Func, f, Some(Ref::Func(ty)));
        },
        "  import a:b/c;
  import f: func(x: u32);
  export a:b/d;
  export g: func(renamed: u32);
",
        "
package a:b {
  interface c {
    f: func();
    g: func();
  }
  interface d {
    f: func();
  }
}
"
    ),
    component!(
        "versions",
        |of| {
            for name in ["a:b/c@1.0.0", "a:b/c@2.0.0-rc.1+5", "root:component/x", "root"] {
                of.interface(name, |of| of.function("get", &[], Some(U32)));
            }
        },
        "  import a:b/c@1.0.0;
  import a:b/c@2.0.0-rc.1+5;
  import root:component/x;
  import root: interface {
    get: func() -> u32;
  }
",
        "
package a:b@1.0.0 {
  interface c {
    get: func() -> u32;
  }
}

package a:b@2.0.0-rc.1+5 {
  interface c {
    get: func() -> u32;
  }
}

package root:component {
  interface x {
    get: func() -> u32;
  }
}
"
    ),
];

/// All components whose world is `root`.
pub fn rows() -> Vec<Row> {
    [TYPES, NOTES, USES].into_iter().flatten().map(|make| make()).collect()
}

/// An interface that uses the types 1 and 3 around it.
fn user() -> Interface {
    let mut user = Interface::default();
    let (r, t) = (user.outer(1), user.outer(3));
    let (r, t) = (user.same("r", r), user.same("t", t));
    let own = user.own(r);
    user.function("f", &[("a", own), ("b", Val::Type(t))], None);
    user
}

/// The package that a WIT package as a binary has: two interfaces, a world, and an interface of
/// another package.
pub fn package() -> Vec<u8> {
    let mut component = ComponentBuilder::default();
    let mut add = |name: &str, fill: &dyn Fn(&mut ComponentType)| {
        let mut ty = ComponentType::new();
        fill(&mut ty);
        let ty = component.type_component(None, &ty);
        component.export(name, ComponentExportKind::Type, ty, None);
    };
    let mut other = Interface::default();
    other.named("t", |ty| ty.enum_type(["one"]));
    let mut types = Interface::default();
    types.resource("r");
    types.function("get", &[], Some(U32));
    add("types", &|ty| {
        ty.ty().instance(&types.0);
        ty.export("a:b/types@1.0.0", Ref::Instance(0));
    });
    add("user", &|ty| {
        ty.ty().instance(&types.0);
        ty.import("a:b/types@1.0.0", Ref::Instance(0));
        ty.alias(Alias::InstanceExport { instance: 0, kind: ComponentExportKind::Type, name: "r" });
        ty.ty().instance(&other.0);
        ty.import("x:y/other", Ref::Instance(2));
        ty.alias(Alias::InstanceExport { instance: 1, kind: ComponentExportKind::Type, name: "t" });
        ty.ty().instance(&user().0);
        ty.export("a:b/user@1.0.0", Ref::Instance(4));
    });
    add("program", &|ty| {
        let mut world = ComponentType::new();
        world.ty().instance(&types.0);
        world.import("a:b/types@1.0.0", Ref::Instance(0));
        world.ty().function().params([("n", U32)]).result(None);
        world.export("run", Ref::Func(1));
        ty.ty().component(&world);
        ty.export("a:b/program@1.0.0", Ref::Component(0));
    });
    component.finish()
}

/// What is printed of it.
pub const PACKAGE: &str = "package a:b@1.0.0;

interface types {
  resource r;
  get: func() -> u32;
}

interface user {
  use types.{r};
  use x:y/other.{t};
  f: func(a: r, b: t);
}

world program {
  import types;
  export run: func(n: u32);
}

package x:y {
  interface other {
    enum t {
      one,
    }
  }
}
";
