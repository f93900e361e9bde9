# A role is granted by making methods, and taken away by a type that fits no call any more.
# Look at tidy: its text stays the same, and what it may do hangs on what was granted before.
class Account
class Admin
script main
type Admin.grant_reading : () -> Nil
def Admin.grant_reading()
  type Account.read : (Str) -> Str
  def Account.read(what) "read " ++ what end
end
type Admin.grant_writing : () -> Nil
def Admin.grant_writing()
  type Account.write : (Str) -> Str
  def Account.write(what) self.read(what) ++ " and wrote it" end
end
type Admin.revoke_writing : () -> Nil
def Admin.revoke_writing() type Account.write : () -> Nil end
type Account.tidy : () -> Str
def Account.tidy() self.write("the log") end
admin = Admin.new
account = Account.new
admin.grant_reading
print account.read("the log")
admin.grant_writing
print account.tidy
admin.revoke_writing
print account.tidy
end
