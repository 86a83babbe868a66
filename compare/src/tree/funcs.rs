//! The part of the tree that lifts and lowers: fields 18 and 19, the builtins numbered as document 01 does.

use super::*;

impl<'a> Builder<'a> {
    pub(super) fn canonical_func(&mut self, head: Row) -> CanonicalFunc<'a> {
        let id = self.decl();
        let kind = match head.b {
            18 => CanonicalFuncKind::Lift {
                ty: ComponentTypeUse::Ref(self.item(kw::r#type)),
                info: CanonLift { func: self.core_item(kw::func), opts: self.options() },
            },
            _ => CanonicalFuncKind::Core(self.builtin(head.e)),
        };
        CanonicalFunc { span: place(head), id, name: None, kind }
    }

    /// The options that come, now and then with a flag between them.
    fn options(&mut self) -> Vec<CanonOpt<'a>> {
        let mut options = Vec::new();
        loop {
            if self.choice.percent(15) {
                options.push(self.flag());
            }
            if !self.at_ref() {
                return options;
            }
            options.push(self.option());
        }
    }

    fn flag(&mut self) -> CanonOpt<'a> {
        match self.choice.below(5) {
            0 => CanonOpt::StringUtf8,
            1 => CanonOpt::StringUtf16,
            2 => CanonOpt::StringLatin1Utf16,
            3 => CanonOpt::Async,
            _ => CanonOpt::Gc,
        }
    }

    fn option(&mut self) -> CanonOpt<'a> {
        match self.here().b {
            3 => CanonOpt::Memory(self.core_item(kw::memory)),
            4 => CanonOpt::CoreType(self.core_item(kw::r#type)),
            _ => {
                let func = self.core_item(kw::func);
                match self.choice.below(3) {
                    0 => CanonOpt::Realloc(func),
                    1 => CanonOpt::PostReturn(func),
                    _ => CanonOpt::Callback(func),
                }
            }
        }
    }

    fn builtin(&mut self, code: u16) -> CoreFuncKind<'a> {
        match code {
            0 => CoreFuncKind::Lower(CanonLower { func: self.item(kw::func), opts: self.options() }),
            4 => CoreFuncKind::ThreadSpawnRef(CanonThreadSpawnRef { ty: self.core_item(kw::r#type) }),
            5 => CoreFuncKind::ThreadSpawnIndirect(CanonThreadSpawnIndirect {
                ty: self.core_item(kw::r#type),
                table: self.core_item(kw::table),
            }),
            13 => {
                let result = self.maybe_index().map(ComponentValType::Ref);
                CoreFuncKind::TaskReturn(CanonTaskReturn { result, opts: self.options() })
            }
            14 => CoreFuncKind::ContextGet(self.value_type_of_core(), 0),
            15 => CoreFuncKind::ContextSet(self.value_type_of_core(), 0),
            1..=3 | 16..=31 => self.builtin_on_type(code),
            32 => CoreFuncKind::ErrorContextNew(CanonErrorContextNew { opts: self.options() }),
            33 => CoreFuncKind::ErrorContextDebugMessage(CanonErrorContextDebugMessage { opts: self.options() }),
            35 => CoreFuncKind::WaitableSetWait(CanonWaitableSetWait { memory: self.core_item(kw::memory) }),
            36 => CoreFuncKind::WaitableSetPoll(CanonWaitableSetPoll { memory: self.core_item(kw::memory) }),
            40 => CoreFuncKind::ThreadNewIndirect(CanonThreadNewIndirect {
                ty: self.core_item(kw::r#type),
                table: self.core_item(kw::table),
            }),
            _ => self.builtin_alone(code),
        }
    }

    /// A builtin on one type, with options or without.
    fn builtin_on_type(&mut self, code: u16) -> CoreFuncKind<'a> {
        let ty = self.item(kw::r#type);
        let async_ = self.choice.percent(50);
        match code {
            1 => CoreFuncKind::ResourceNew(CanonResourceNew { ty }),
            2 => CoreFuncKind::ResourceRep(CanonResourceRep { ty }),
            3 => CoreFuncKind::ResourceDrop(CanonResourceDrop { ty }),
            16 => CoreFuncKind::StreamNew(CanonStreamNew { ty }),
            17 => CoreFuncKind::StreamRead(CanonStreamRead { ty, opts: self.options() }),
            18 => CoreFuncKind::StreamWrite(CanonStreamWrite { ty, opts: self.options() }),
            19 => CoreFuncKind::StreamForward(CanonStreamForward { ty }),
            20 => CoreFuncKind::StreamCancelRead(CanonStreamCancelRead { ty, async_ }),
            21 => CoreFuncKind::StreamCancelWrite(CanonStreamCancelWrite { ty, async_ }),
            22 => CoreFuncKind::StreamDropReadable(CanonStreamDropReadable { ty }),
            23 => CoreFuncKind::StreamDropWritable(CanonStreamDropWritable { ty }),
            24 => CoreFuncKind::FutureNew(CanonFutureNew { ty }),
            25 => CoreFuncKind::FutureRead(CanonFutureRead { ty, opts: self.options() }),
            26 => CoreFuncKind::FutureWrite(CanonFutureWrite { ty, opts: self.options() }),
            27 => CoreFuncKind::FutureForward(CanonFutureForward { ty }),
            28 => CoreFuncKind::FutureCancelRead(CanonFutureCancelRead { ty, async_ }),
            29 => CoreFuncKind::FutureCancelWrite(CanonFutureCancelWrite { ty, async_ }),
            30 => CoreFuncKind::FutureDropReadable(CanonFutureDropReadable { ty }),
            _ => CoreFuncKind::FutureDropWritable(CanonFutureDropWritable { ty }),
        }
    }

    /// A builtin without operands.
    fn builtin_alone(&mut self, code: u16) -> CoreFuncKind<'a> {
        match code {
            6 => CoreFuncKind::ThreadAvailableParallelism(CanonThreadAvailableParallelism),
            7 => CoreFuncKind::BackpressureInc,
            8 => CoreFuncKind::BackpressureDec,
            9 => CoreFuncKind::TaskCancel,
            10 => CoreFuncKind::SubtaskDrop,
            11 => CoreFuncKind::SubtaskCancel(CanonSubtaskCancel { async_: self.choice.percent(50) }),
            12 => CoreFuncKind::ErrorContextDrop,
            34 => CoreFuncKind::WaitableSetNew,
            37 => CoreFuncKind::WaitableSetDrop,
            38 => CoreFuncKind::WaitableJoin,
            39 => CoreFuncKind::ThreadIndex,
            41 => CoreFuncKind::ThreadResumeLater,
            42 => CoreFuncKind::ThreadSuspend,
            43 => CoreFuncKind::ThreadYield,
            44 => CoreFuncKind::ThreadSuspendThenResume,
            45 => CoreFuncKind::ThreadYieldThenResume,
            46 => CoreFuncKind::ThreadSuspendThenPromote,
            47 => CoreFuncKind::ThreadYieldThenPromote,
            _ => unreachable!("builtin {code}"),
        }
    }
}
