# Makes every item and every struct field public. Items stand in the first column, fields in the fifth.
s/\bpub\((super|crate)\) /pub /
s/^(mod|fn|const|static|struct|enum|union) /pub \1 /
/^pub struct /,/^\}/ s/^    (\w+:)/    pub \1/
