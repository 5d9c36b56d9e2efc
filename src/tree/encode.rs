//! The encodings of trees.

use super::{
    AbstractHeapType, AliasTree, ArrayType, CanonTree, CaseTree, ComponentDecl, CompositeType,
    CoreInstanceTree, CoreTypeTree, DefinedTree, EntityType, FieldType, FuncType, GlobalType,
    GroupTree, HeapType, InstanceDecl, InstanceTree, MemoryType, ModuleDecl, NameTree, RefType,
    StorageType, StructType, SubType, TableType, TagType, TypeTree, ValType,
};
use crate::encode::encode;

encode! {
    AbstractHeapType, ty => *ty;
    AliasTree, alias => alias.as_alias();
    ArrayType, ty => *ty;
    CanonTree, canon => *canon;
    CaseTree, case => *case;
    ComponentDecl, decl => *decl;
    CompositeType, ty => *ty;
    CoreInstanceTree, instance => *instance;
    CoreTypeTree, ty => *ty;
    DefinedTree, ty => *ty;
    EntityType, ty => *ty;
    FieldType, ty => *ty;
    FuncType, ty => *ty;
    GlobalType, ty => *ty;
    GroupTree, group => *group;
    HeapType, ty => *ty;
    InstanceDecl, decl => *decl;
    InstanceTree, instance => *instance;
    MemoryType, ty => *ty;
    ModuleDecl, decl => *decl;
    NameTree, name => name.as_name();
    RefType, ty => *ty;
    StorageType, ty => *ty;
    StructType, ty => *ty;
    SubType, ty => *ty;
    TableType, ty => *ty;
    TagType, ty => *ty;
    TypeTree, ty => *ty;
    ValType, ty => *ty;
}
