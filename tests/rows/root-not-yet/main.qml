import QtQml 2.15
QtObject { property string a: "x" }
