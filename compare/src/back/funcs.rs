//! The rows of what lifts and lowers.

use super::Writer;
use crate::component::*;

impl<'a> Writer<'a> {
    pub(super) fn canonical_func(&mut self, kind: &CanonicalFuncKind<'a>) {
        match kind {
            CanonicalFuncKind::Lift { ty: ComponentTypeUse::Ref(ty), info } => {
                self.reference(9, &ty.idx);
                self.reference(0, &info.func.idx);
                self.options(&info.opts);
            }
            CanonicalFuncKind::Lift { .. } => unreachable!("types in line are never built"),
            CanonicalFuncKind::Core(core) => self.builtin(core),
        }
    }

    fn options(&mut self, options: &[CanonOpt<'a>]) {
        for option in options {
            match option {
                CanonOpt::Memory(item) => self.reference(3, &item.idx),
                CanonOpt::Realloc(item) | CanonOpt::PostReturn(item) | CanonOpt::Callback(item) => {
                    self.reference(0, &item.idx)
                }
                CanonOpt::CoreType(item) => self.reference(4, &item.idx),
                CanonOpt::StringUtf8
                | CanonOpt::StringUtf16
                | CanonOpt::StringLatin1Utf16
                | CanonOpt::Async
                | CanonOpt::Gc => {}
            }
        }
    }

    fn builtin(&mut self, builtin: &CoreFuncKind<'a>) {
        use CoreFuncKind as Kind;
        match builtin {
            Kind::Lower(info) => {
                self.reference(8, &info.func.idx);
                self.options(&info.opts);
            }
            Kind::ThreadSpawnRef(info) => self.reference(4, &info.ty.idx),
            Kind::ThreadSpawnIndirect(info) => {
                self.reference(4, &info.ty.idx);
                self.reference(2, &info.table.idx);
            }
            Kind::ThreadNewIndirect(info) => {
                self.reference(4, &info.ty.idx);
                self.reference(2, &info.table.idx);
            }
            Kind::TaskReturn(info) => {
                info.result.iter().for_each(|ty| self.value_type(ty));
                self.options(&info.opts);
            }
            Kind::ContextGet(ty, _) | Kind::ContextSet(ty, _) => self.core_value_type(ty),
            Kind::ErrorContextNew(info) => self.options(&info.opts),
            Kind::ErrorContextDebugMessage(info) => self.options(&info.opts),
            Kind::WaitableSetWait(info) => self.reference(3, &info.memory.idx),
            Kind::WaitableSetPoll(info) => self.reference(3, &info.memory.idx),
            other => self.builtin_on_type(other),
        }
    }

    /// The builtins on one type; those without operands write nothing.
    fn builtin_on_type(&mut self, builtin: &CoreFuncKind<'a>) {
        use CoreFuncKind as Kind;
        let (ty, options): (_, &[CanonOpt<'a>]) = match builtin {
            Kind::ResourceNew(info) => (&info.ty, &[]),
            Kind::ResourceRep(info) => (&info.ty, &[]),
            Kind::ResourceDrop(info) => (&info.ty, &[]),
            Kind::StreamNew(info) => (&info.ty, &[]),
            Kind::StreamRead(info) => (&info.ty, &info.opts),
            Kind::StreamWrite(info) => (&info.ty, &info.opts),
            Kind::StreamForward(info) => (&info.ty, &[]),
            Kind::StreamCancelRead(info) => (&info.ty, &[]),
            Kind::StreamCancelWrite(info) => (&info.ty, &[]),
            Kind::StreamDropReadable(info) => (&info.ty, &[]),
            Kind::StreamDropWritable(info) => (&info.ty, &[]),
            Kind::FutureNew(info) => (&info.ty, &[]),
            Kind::FutureRead(info) => (&info.ty, &info.opts),
            Kind::FutureWrite(info) => (&info.ty, &info.opts),
            Kind::FutureForward(info) => (&info.ty, &[]),
            Kind::FutureCancelRead(info) => (&info.ty, &[]),
            Kind::FutureCancelWrite(info) => (&info.ty, &[]),
            Kind::FutureDropReadable(info) => (&info.ty, &[]),
            Kind::FutureDropWritable(info) => (&info.ty, &[]),
            _ => return,
        };
        self.reference(9, &ty.idx);
        self.options(options);
    }
}
