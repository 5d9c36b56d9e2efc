//! Random components that are valid by construction, many in one: each index that a call returns is
//! used by later calls where only an item of its kind and type is valid.

mod canonicals;
mod typed_items;

use crate::corpus;
use wenc::*;

/// Numbers that a seed makes.
struct Random(u64);

impl Random {
    fn below(&mut self, n: usize) -> usize {
        self.0 = self.0.wrapping_mul(6364136223846793005).wrapping_add(1442695040888963407);
        (self.0 >> 33) as usize % n
    }

    fn is(&mut self) -> bool {
        self.below(2) == 0
    }

    /// One of these, where there are any.
    fn of<T: Clone>(&mut self, from: &[T]) -> Option<T> {
        if from.is_empty() { None } else { from.get(self.below(from.len())).cloned() }
    }
}

/// The type of a function, by its index in the component where it stands.
#[derive(Clone, Copy)]
struct Function {
    ty: u32,
    is_async: bool,
    /// Whether it takes a text and answers one, so that the core function `text` can be lifted to
    /// it.
    is_text: bool,
}

/// What a component has so far, by index.
#[derive(Default)]
struct Scope {
    /// Types of values that hold nothing borrowed, with names where they need some.
    values: Vec<u32>,
    resources: Vec<u32>,
    own_resources: Vec<u32>,
    streams: Vec<u32>,
    futures: Vec<u32>,
    function_types: Vec<Function>,
    functions: Vec<(u32, Function)>,
    /// Instances, with the functions that they export.
    instances: Vec<(u32, Vec<(String, Function)>)>,
    components: Vec<u32>,
    core_modules: Vec<u32>,
    core_functions: Vec<u32>,
    /// Core functions that take a text and return one.
    texts: Vec<u32>,
    memories: Vec<u32>,
    reallocs: Vec<u32>,
    /// How many names there are.
    names: usize,
}

struct Maker<'a> {
    random: Random,
    core: &'a [u8],
    /// How many components there are, and how many calls made them.
    components: usize,
    calls: usize,
    /// Whether half of them say their debug names.
    has_names: bool,
}

impl Maker<'_> {
    /// A name that nothing else in this component has.
    fn name(&mut self, scope: &mut Scope, lead: &str) -> String {
        scope.names += 1;
        let ends = ["", "-x", "-LOUD", "-a1-b2", "-and-a-longer-name-than-the-others-have"];
        format!("{lead}{}{}", scope.names, ends[self.random.below(ends.len())])
    }

    /// Instantiates the core module, which is added where there is none.
    fn core(&mut self, b: &mut ComponentBuilder, scope: &mut Scope) {
        let module = self.random.of(&scope.core_modules).unwrap_or_else(|| {
            let module = b.core_module_raw(None, self.core);
            scope.core_modules.push(module);
            module
        });
        let instance = b.core_instantiate(None, module, [] as [(&str, ModuleArg); 0]);
        scope.memories.push(b.core_alias_export(None, instance, "memory", ExportKind::Memory));
        let mut function = |name| b.core_alias_export(None, instance, name, ExportKind::Func);
        scope.reallocs.push(function("cabi_realloc"));
        let text = function("text");
        scope.texts.push(text);
        scope.core_functions.push(text);
    }

    /// A core instance of core functions, one of which is aliased.
    fn core_bag(&mut self, b: &mut ComponentBuilder, scope: &mut Scope) {
        let count = self.random.below(4);
        let functions: Vec<(String, u32)> = (0..count)
            .filter_map(|i| Some((format!("c{i}"), self.random.of(&scope.core_functions)?)))
            .collect();
        let exports = functions.iter().map(|(name, index)| (&**name, ExportKind::Func, *index));
        let instance = b.core_instantiate_exports(None, exports.collect::<Vec<_>>());
        if let Some((name, _)) = functions.first() {
            scope.core_functions.push(b.core_alias_export(None, instance, name, ExportKind::Func));
        }
    }

    /// An instance of functions.
    fn bag(&mut self, b: &mut ComponentBuilder, scope: &mut Scope) {
        let count = self.random.below(4);
        let functions: Vec<(String, (u32, Function))> = (0..count)
            .filter_map(|i| Some((format!("e{i}"), self.random.of(&scope.functions)?)))
            .collect();
        let exports =
            functions.iter().map(|(name, (index, _))| (&**name, ComponentExportKind::Func, *index));
        let instance = b.instantiate_exports(None, exports.collect::<Vec<_>>());
        let exports = functions.into_iter().map(|(name, (_, function))| (name, function));
        scope.instances.push((instance, exports.collect()));
    }

    /// A component in this one, which may use what this one has.
    fn nested(&mut self, b: &mut ComponentBuilder, scope: &mut Scope, depth: u32) {
        let (mut inner, mut inside) = (ComponentBuilder::default(), Scope::default());
        for &index in &scope.core_modules {
            let kind = ComponentOuterAliasKind::CoreModule;
            let module = inner.alias(None, Alias::Outer { kind, count: 1, index });
            inside.core_modules.push(module);
        }
        for function in scope.function_types.iter().filter(|function| function.is_text) {
            let kind = ComponentOuterAliasKind::Type;
            let ty = inner.alias(None, Alias::Outer { kind, count: 1, index: function.ty });
            inside.function_types.push(Function { ty, ..*function });
        }
        self.fill(&mut inner, &mut inside, depth + 1);
        scope.components.push(b.component(Some("inner"), inner));
    }

    fn step(&mut self, b: &mut ComponentBuilder, scope: &mut Scope, depth: u32) {
        self.calls += 1;
        match self.random.below(18) {
            0..=2 => self.defined(b, scope),
            3 => self.resource(b, scope),
            4 | 5 => self.function_type(b, scope),
            6 => self.imported_function(b, scope),
            7 => self.exported_function(b, scope),
            8 => self.instance_type(b, scope),
            9 => {
                let Some((instance, exports)) = self.random.of(&scope.instances) else { return };
                let Some((name, function)) = self.random.of(&exports) else { return };
                let index = b.alias_export(instance, &name, ComponentExportKind::Func);
                scope.functions.push((index, function));
            }
            10 => self.core(b, scope),
            11 => self.lifted(b, scope),
            12..=14 => self.canonical(b, scope),
            15 => self.core_bag(b, scope),
            16 => self.bag(b, scope),
            _ if depth < 3 => self.nested(b, scope, depth),
            _ => {
                b.core_type(None).1.core().function([ValType::I32], [ValType::I64]);
                let Some(component) = self.random.of(&scope.components) else { return };
                let (name, kind) = (self.name(scope, "c"), ComponentExportKind::Component);
                scope.components.push(b.export(&name, kind, component, None));
            }
        }
    }

    fn fill(&mut self, b: &mut ComponentBuilder, scope: &mut Scope, depth: u32) {
        self.components += 1;
        for _ in 0..self.random.below(120) {
            self.step(b, scope, depth);
        }
        if self.random.is() && self.has_names {
            b.append_names();
        }
    }
}

/// A component that holds random ones, and how many there are in these with them, and calls.
pub fn components(seed: u64, count: usize, has_names: bool) -> (Vec<u8>, usize, usize) {
    let core = corpus::read("features.wasm");
    let mut maker = Maker { random: Random(seed), core: &core, components: 0, calls: 0, has_names };
    let mut outer = ComponentBuilder::default();
    for _ in 0..count {
        let mut inner = ComponentBuilder::default();
        maker.fill(&mut inner, &mut Scope::default(), 0);
        outer.component(None, inner);
    }
    (outer.finish(), maker.components, maker.calls)
}
